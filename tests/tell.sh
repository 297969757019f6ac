# What the tests of texts share, for `.`: a folder to work in, and how a failure is told.
work=$(mktemp -d) || exit 2
trap 'rm -rf "$work"' EXIT
failed=0

tell() {
    echo "FAILED: $1"
    failed=1
}
