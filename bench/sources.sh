# Sources to assemble, for other scripts to read in.

# A source of so many lines of words, in stretches of 3,400 words, each in the next field.
source_of() {
    awk -v lines="$1" 'BEGIN {
        for (i = 0; i < lines; i++) {
            if (i % 3400 == 0) printf "FIELD %d\n*200\n", int(i / 3400) % 8
            tag = int(i / 5) % 2000
            kind = i % 5
            if (kind == 0 && i < 10000) printf "T%04d,\tCLA CLL\n", tag
            else if (kind == 0) printf "\tCLA CLL\n"
            else if (kind == 1) printf "\tTAD 20\t/ a word of page zero\n"
            else if (kind == 2) printf "\tT%04d+1\n", int(tag * 7 % (tag + 1))
            else if (kind == 3) printf "\tDCA I 21\n"
            else printf "\tISZ 22\n"
        }
        printf "$\n"
    }' | sed 's/$/\r/'
}

# A PAL8 source of so many lines of words, in pages of 80 words, each page in the next, and 30 of them in each field. Every second word has a literal
# or a link. What a page asks for depends on its field and page alone. So a page asks for the same each time that the source returns to it.
literals_of() {
    awk -v lines="$1" 'BEGIN {
        for (i = 0; i < lines; i++) {
            page = int(i / 80) % 240
            word = i % 80
            if (word == 0 && page % 30 == 0) printf "FIELD %d\n", int(page / 30)
            else if (word == 0) printf "PAGE\n"
            if (word % 4 == 0) printf "\tTAD (%o\t/ a literal\n", (word / 4 + page) % 16
            else if (word % 4 == 2) printf "\tDCA T%04d\n", (page * 40 + word % 16) % 2000
            else if (word % 2 == 1 && i < 4000) printf "T%04d,\tCLA CLL\n", int(i / 2)
            else printf "\tISZ 22\n"
        }
        printf "$\n"
    }' | sed 's/$/\r/'
}
