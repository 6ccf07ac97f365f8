# Nothing changes but a comment.
s/<!-- channels -->/<!-- who may wake or call whom -->/
