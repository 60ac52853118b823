#!/bin/bash
# make_list.sh FOLDER LIST [KINDS]: writes the list of all files below FOLDER, in the station's layout, with md5sum, sha1sum and
# xxhsum. KINDS says which digests, in one word each: "md5" where it is left out, at most "md5 sha1 xxh".
# For trials and benchmarks: a list that the station did not make. File names with a line feed are not for it.
set -eu
export LC_ALL=C
folder=$1 list=$2 kinds=" ${3:-md5} "
now=$(date -u +%Y-%m-%dT%H:%M:%SZ)

escaped() { sed 's/&/\&amp;/g; s/</\&lt;/g; s/>/\&gt;/g'; }
wanted() { case $kinds in *" $1 "*) return 0 ;; *) return 1 ;; esac; }
if wanted xxh; then xxhsum --version > /dev/null 2>&1 || { echo "make_list.sh: xxhsum is not here" >&2; exit 1; }; fi
digests() {
    if wanted md5; then md5sum < "$1" | cut -c1-32; else echo -; fi
    if wanted sha1; then sha1sum < "$1" | cut -c1-40; else echo -; fi
    if wanted xxh; then xxhsum -H64 < "$1" 2> /dev/null | cut -c1-16; else echo -; fi
}

{
    printf '%s\n' '<?xml version="1.0" encoding="UTF-8"?>' '<hashlist version="1.1">' '  <creatorinfo>' \
        '    <name>A001</name>' '    <username>ana</username>' '    <hostname>cart1</hostname>' \
        '    <tool>md5sum</tool>' "    <startdate>$now</startdate>" "    <finishdate>$now</finishdate>" '  </creatorinfo>'
    # One line a file: the digests, size, seconds, path, in the order of the paths.
    (cd "$folder" && find . -type f -printf '%P\0' | sort -z | while IFS= read -r -d '' path; do
        printf '%s %s %s\n' "$(digests "$path" | tr '\n' ' ' | sed 's/ $//')" "$(stat -c '%s %Y' -- "$path")" "$path"
    done) | escaped | awk -v now="$now" '
        function line(name, text) { if (text != "-") printf "    <%s>%s</%s>\n", name, text, name }
        {
            path = substr($0, length($1) + length($2) + length($3) + length($4) + length($5) + 6)
            print "  <hash>"
            line("file", path); line("size", $4); line("lastmodificationdate", strftime("%Y-%m-%dT%H:%M:%SZ", $5, 1))
            line("md5", $1); line("sha1", $2); line("xxhash64be", $3); line("hashdate", now)
            print "  </hash>"
        }'
    printf '%s\n' '</hashlist>'
} > "$list"
