# shellcheck shell=bash
# To be sourced: looks for the tools that a script needs.

# missing_tools TOOL..: prints those that are not on the path, each once.
missing_tools() {
    local tool missing=' '
    for tool; do
        [[ $missing == *" $tool "* ]] || command -v "$tool" >/dev/null || missing+="$tool "
    done
    missing=${missing# }
    echo "${missing% }"
}
