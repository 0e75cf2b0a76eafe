# For the smoke tests: holds a program to what it reads, prints and ends with.
program=() # the program and its arguments
passed=0
failed=0

# held NAME STATUS TEXT COMMAND..: fed by the command, the program ends with the status and prints the text and nothing
# else
held() {
    local name=$1 status=$2 text=$3 got ended
    shift 3
    got=$("$@" | "${program[@]}" 2>&1; echo "status $?")
    ended="status $status"
    if [ "$got" = "$text"$'\n'"$ended" ]; then
        passed=$((passed + 1))
    else
        failed=$((failed + 1))
        printf '%s: wanted "%s" and %s, got "%s"\n' "$name" "$text" "$ended" "$got"
    fi
}

# Tells how many held, and fails where one did not.
tell() {
    echo "$passed passed, $failed failed"
    [ "$failed" -eq 0 ]
}

# Bytes for a program: a number without end, and the sample bag with bytes after it.
long() { head -c 20000 /dev/zero | tr '\0' '\200'; }
followed() { cat crates/bagplan/stdin && head -c 20000 /dev/zero; }
