# Which files the program is made of. ./vend, tools/release and .ci/run read this with `source`, and
# set `top` to the top of the repository first. It needs bash and Debian's coreutils and findutils.

# The crates that the program is made of, the last of crates.txt first: it has each after those that
# it names.
crates_of_program() {
    local wanted=' vend ' name rest
    while IFS=: read -r name rest; do
        name=${name%% *}
        if [[ $wanted == *" $name "* && -d $top/crates/$name ]]; then
            echo "$name"
            wanted+=" ${rest%%#*} "
        fi
    done < <(tac "$top/crates.txt")
}

# The checksum of all that the program is made of: each file of src, specs and proofs of its crates,
# crates.txt and HANDLES, with their names.
sum_of_sources() (
    cd "$top" || exit 1
    mapfile -t names < <(crates_of_program)
    folders=()
    for name in "${names[@]}"; do
        for part in src specs proofs; do
            [ ! -d "crates/$name/$part" ] || folders+=("crates/$name/$part")
        done
    done
    sum=$({ find "${folders[@]}" -type f -print0; printf '%s\0' crates.txt HANDLES; } |
        LC_ALL=C sort -z | xargs -0 sha256sum -- | sha256sum)
    echo "${sum%% *}"
)

# What the release's page says in the row that begins with this name.
said_of_release() {
    local name value
    while IFS='|' read -r _ name value _; do
        if [ "$name" = " $1 " ]; then
            value=${value//\`/}
            value=${value# }
            echo "${value% }"
            return
        fi
    done <"$top/release/README.md"
} 2>/dev/null
