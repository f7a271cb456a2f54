# For a script of the gate: a folder for its files, and the line that it ends with, 'N passed, M failed'.
passed=0
failed=0
folder=$(mktemp -d)

# A script that ends early has failed, as has one without a check.
end() {
    local status=$?
    rm -r "$folder"
    [ "$passed" -gt 0 ] || echo "nothing was checked"
    if [ "$failed" = 0 ] && { [ "$status" != 0 ] || [ "$passed" = 0 ]; }; then
        failed=1
    fi
    echo "$passed passed, $failed failed"
    [ "$failed" = 0 ] || exit 1
}
trap end EXIT
trap 'exit 143' HUP INT TERM
