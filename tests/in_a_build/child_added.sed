# The monitor has a second child, which reads the readings and prints nothing.
/<protection_domain name="rules"/i\
        <protection_domain name="trends" id="2" priority="50" budget="4000" period="40_000">\
            <program_image path="trends.elf" />\
            <map mr="readings" vaddr="0x200_0000" perms="r" />\
        </protection_domain>
