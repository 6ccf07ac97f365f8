# The bus is called fieldbus, and claims name it by its old name.
s/\(name\|pd\)="bus"/\1="fieldbus"/
