#!/bin/sh
# Writes a manual page: page.sh avscan.1|avguard.1|avtool.1|avsig.5|avscript.5 PROGRAM
# The formats come from docs/FORMATS.md and the commands from the help of PROGRAM, the one of that name for a page of a program, so that
# page, document and help say the same.
set -eu
here=$(dirname "$0")
formats=$here/../docs/FORMATS.md

title() { # NAME SECTION WHAT
    printf '.TH %s %s "" "Vizdroun" "%s"\n' "$1" "$2" "$3"
    # lines are not stretched: a table of formats has words that fill half of one
    printf '.ad l\n.nh\n'
}

part() { # HEADING: the part of docs/FORMATS.md under this heading, as far as the next one of its kind or above it
    awk -v heading="$1" '
        /^```/ { fenced = !fenced }
        $0 == heading { inside = length($1); next }
        !fenced && /^#+ / && length($1) <= inside { inside = 0 }
        inside
    ' "$formats" | awk -f "$here/roff.awk"
}

words() { # a help text
    awk -f "$here/help.awk"
}

command_page() { # NAME WHAT PROGRAM COMMAND..
    name=$1
    program=$3
    title "$(echo "$name" | tr a-z A-Z)" 1 "User Commands"
    echo .SH NAME
    echo "$name \\- $2"
    shift 3
    echo .SH SYNOPSIS
    for command in "$@"; do
        "$program" "$command" --help | sed -n -e 's/-/\\-/g' -e "s/^Usage: \\($name [a-z\\-]*\\) *\\(.*\\)/.br\\n.B \\1\\n\\2/p"
    done
    echo .SH DESCRIPTION
    "$program" --help | words
    for command in "$@"; do
        echo ".SS $name $command"
        "$program" "$command" --help | words
    done
}

see_also() { # PAGE.SECTION..
    echo .SH "SEE ALSO"
    while [ $# -gt 1 ]; do
        echo ".BR ${1%.*} (${1##*.}),"
        shift
    done
    echo ".BR ${1%.*} (${1##*.})"
}

# What avscan(1) says of all programs.
of_all() {
    echo .SH "OUTPUT, STATUS AND FAULTS"
    echo 'The manual page'
    echo '.BR avscan (1)'
    echo 'lists the output, the exit statuses and the fault lines of all programs.'
}

format_page() { # NAME WHAT HEADING
    title "$(echo "$1" | tr a-z A-Z)" 5 "File Formats"
    echo .SH NAME
    echo "$1 \\- $2"
    echo .SH DESCRIPTION
    part "## $3"
    see_also avscan.1
}

case ${1-} in
avscan.1)
    command_page avscan "hold opens of files until a scanning service has judged their content" "$2" run scan host filter service check
    echo .SH "OUTPUT, STATUS AND FAULTS"
    part "## The programs"
    see_also avguard.1 avtool.1 avsig.5 avscript.5
    ;;
avguard.1)
    command_page avguard "answer other programs whether a content may be opened" "$2" run ask status metrics paths check-config
    echo .SH "CONFIGURATION FILES"
    part "### Configuration files"
    of_all
    see_also avscan.1 avsig.5
    ;;
avtool.1)
    command_page avtool "draw scripts, make random ones, take signatures of other products, merge and sign signature files" "$2" chart generate import merge sign
    of_all
    see_also avscan.1 avsig.5 avscript.5
    ;;
avsig.5) format_page avsig "signature files of avscan" "Signature files" ;;
avscript.5) format_page avscript "scripts of avscan" "Scripts" ;;
*)
    echo "page.sh: there is no page ${1-}" >&2
    exit 2
    ;;
esac
