# For bash scripts, by `source`: words for the line of seven numbers, from the two headers for C.
# shellcheck shell=bash

version_of() { # HEADERS
    sed -n 's/^#define FUGANOREZI_VERSION "\(.*\)"$/\1/p' "$1/fuganorezi.h"
}

# The rows of fuganorezi_words.h, parted by tabs: `field NUMBER NAME FORM`, and `rule CODE PLACE WORDS` with `any` for any field.
rows_of_words() { # HEADERS
    LC_ALL=C awk '
        # the strings of a row, without their quotes
        function strings(row, found,    count) {
            while (match(row, /"([^"\\]|\\.)*"/)) {
                found[++count] = substr(row, RSTART + 1, RLENGTH - 2)
                gsub(/\\"/, "\"", found[count])
                row = substr(row, RSTART + RLENGTH)
            }
        }
        BEGIN { OFS = "\t" }
        /^    FUGANOREZI_[A-Z0-9_]+ = [0-9]+,?$/ { sub(/,/, ""); number[$1] = $3 }
        /^        FUGANOREZI_FIELD\(/ {
            strings($0, found)
            gsub(/^[^(]*\(|,.*/, "")
            print "field", $0, found[1], found[2]
        }
        /^        \{FUGANOREZI_/ {
            strings($0, found)
            split($0, part, /[{, ]+/)
            print "rule", number[part[2]], part[3] == "FUGANOREZI_ANY_FIELD" ? "any" : part[3], found[1]
        }' "$1/fuganorezi.h" "$1/fuganorezi_words.h"
}

# By the field's number; by CODE/PLACE.
declare -A field_name field_form rule_words

read_words() { # HEADERS
    local rows kind first second third
    rows=$(rows_of_words "$1") || return
    while IFS=$'\t' read -r kind first second third; do
        case $kind in
        field) field_name[$first]=$second field_form[$first]=$third ;;
        rule) rule_words[$first/$second]=$third ;;
        esac
    done <<<"$rows"
}

words_for() { # CODE PLACE
    local words=${rule_words[$1/$2]-}
    if [ -z "$words" ] && [ -n "${field_name[$2]-}" ]; then words=${rule_words[$1/any]-}; fi
    echo "${words:-there are no words for this code at this place}"
}

# ---- the two forms of an answer. The identifier is empty where it is not to be shown.

what_is_wrong() { # PATH CODE RECORD PLACE IDENTIFIER WORDS
    local said=$1
    if [ "$3" -ne 0 ]; then said+=": record $3${5:+ ($5)}"; fi
    if [ "$4" -ne 0 ]; then said+=", field $4 (${field_name[$4]})"; fi
    said+=": $6"
    if [ "$2" -eq 210 ] && [ "$4" -ne 0 ]; then said+=", expected ${field_form[$4]}"; fi
    echo "$said [code $2]"
}

# In groups of three digits: the highest group as it is, each other with its zeros.
grouped() { # NUMBER
    local rest=$1 said=
    while [ "$rest" -ge 1000 ]; do
        said=$(printf ' %03d' $((rest % 1000)))$said
        rest=$((rest / 1000))
    done
    echo "$rest$said"
}

crowns() { # HALERE
    printf '%s.%02d Kč\n' "$(grouped $(($1 / 100)))" $(($1 % 100))
}

totals() { # PATH LIVE CANCELLED CASH PRICE
    echo "$1: good"
    echo "  to be posted     $2"
    echo "  cancelled        $3"
    echo "  cash on delivery $(crowns "$4")"
    echo "  price specified  $(crowns "$5")"
}
