#!/usr/bin/env bash
# Counts instructions by each version, with valgrind; the counts do not depend on what else the machine does.
#   ./instructions.sh [SIZE]    of one search on each family at one size (default 1024)
#   ./instructions.sh combine   of one combination of each family, and for each mask test more
#   ./instructions.sh grade     of one grade of each family
#   ./instructions.sh ceiling   of one proved search without a ceiling and under one far below the length
#   ./instructions.sh distances of the distances of each family
cd "$(dirname "$0")" || exit 1
program=target/release/fahkelo-bench

# The instructions of the function $1, in a run of the program with the words that follow.
count() {
    local function=$1
    shift
    valgrind --tool=callgrind --callgrind-out-file=/dev/null --toggle-collect="*$function*" \
        "$program" "$@" 2>&1 | sed -n 's/^.*Collected : //p'
}

searches() {
    local family proved safe unchecked textbook
    echo "| family | proved | safe | unchecked | textbook | proved/safe | proved/unchecked | proved/textbook |"
    echo "|---|---|---|---|---|---|---|---|"
    for family in $("$program" families); do
        proved=$(count search_once once proved "$family" "$1")
        safe=$(count search_once once safe "$family" "$1")
        unchecked=$(count search_once once unchecked "$family" "$1")
        textbook=$(count textbook_once once textbook "$family" "$1")
        awk -v f="$family" -v p="$proved" -v s="$safe" -v u="$unchecked" -v t="$textbook" 'BEGIN {
            printf "| %s | %.0f | %.0f | %.0f | %.0f | %.2f | %.2f | %.2f |\n", f, p, s, u, t, p / s, p / u, p / t }'
    done
}

# One line for each family of combinations: name, mask tests a pass, blocks, instructions of the three versions.
counted_combinations() {
    local family tests blocks
    "$program" combine-families | while read -r family tests blocks; do
        echo "$family $tests $blocks $(count combine_once combine-once proved "$family")" \
            "$(count combine_once combine-once safe "$family") $(count combine_once combine-once unchecked "$family")"
    done
}

combinations() {
    local counted
    counted=$(counted_combinations)
    echo "| family | mask tests a pass | blocks | proved | safe | unchecked | proved/safe | proved/unchecked |"
    echo "|---|---|---|---|---|---|---|---|"
    echo "$counted" | awk '{ printf "| %s | %d | %d | %d | %d | %d | %.2f | %.2f |\n", $1, $2, $3, $4, $5, $6, $4 / $5, $4 / $6 }'
    echo
    echo "growth: instructions for each mask test more a pass, where each pass does it once"
    echo
    echo "| mask tests a pass, from | to | proved | safe | unchecked |"
    echo "|---|---|---|---|---|"
    echo "$counted" | awk '$1 ~ /tests/ {
        if (before) { more = $2 - t
            printf "| %d | %d | %.2f | %.2f | %.2f |\n", t, $2, ($4 - p) / more, ($5 - s) / more, ($6 - u) / more }
        before = 1; t = $2; p = $4; s = $5; u = $6 }'
}

# The table of a function $1 by all versions: $2 is its command, and the words that follow are the families.
by_all_versions() {
    local function=$1 command=$2 family proved safe paired unchecked
    shift 2
    echo "| family | proved | safe | paired | unchecked | proved/safe | proved/paired | proved/unchecked |"
    echo "|---|---|---|---|---|---|---|---|"
    for family in "$@"; do
        proved=$(count "$function" "$command" proved "$family")
        safe=$(count "$function" "$command" safe "$family")
        paired=$(count "$function" "$command" paired "$family")
        unchecked=$(count "$function" "$command" unchecked "$family")
        awk -v f="$family" -v p="$proved" -v s="$safe" -v w="$paired" -v u="$unchecked" 'BEGIN {
            printf "| %s | %.0f | %.0f | %.0f | %.0f | %.2f | %.2f | %.2f |\n", f, p, s, w, u, p / s, p / w, p / u }'
    done
}

ceilings() {
    local family ceiling without under
    echo "| family | ceiling | proved without | proved under | under/without |"
    echo "|---|---|---|---|---|"
    "$program" ceiling-families | while read -r family ceiling; do
        without=$(count search_once once proved "$family" 4096)
        under=$(count search_once once proved "$family" 4096 "$ceiling")
        awk -v f="$family" -v c="$ceiling" -v w="$without" -v u="$under" \
            'BEGIN { printf "| %s | %d | %.0f | %.0f | %.4f |\n", f, c, w, u, u / w }'
    done
}

case ${1:-} in
combine) combinations ;;
grade) by_all_versions grade_once grade-once $("$program" grade-families) ;;
ceiling) ceilings ;;
distances) by_all_versions distances_once distances-once $("$program" families) ;;
*) searches "${1:-1024}" ;;
esac
