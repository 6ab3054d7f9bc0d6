#!/bin/bash
# The Debian package of packaging/deb.sh: what is in it, that it runs, and what lintian says.
#
#     checks/deb.sh
#
# The package is built and unpacked into a folder. There the programs meter the sample capture, which must give the stream that
# the programs of bin/ give, and the examples of the package print and draw it. `dpkg` installs it into another folder, with a list
# of packages of its own, where the programs meter the sample too. Each program has its page and its completions, and the pages
# have the version of the package. The version of libc6 that it depends on is that of dpkg-shlibdeps, and each path that its
# documents name is there. lintian must find no error and no warning. Two builds must be the same, byte for byte. One line
# for each; a program that is missing (dpkg-deb, strip; dpkg-shlibdeps of dpkg-dev; lintian), and a right that dpkg lacks, is skipped with one line. The status
# is not 0 where anything differs.
set -u

top=$(dirname "$(cd "$(dirname "$0")" && pwd)")
export LC_ALL=C
for needed in dpkg-deb strip make; do
    if ! command -v "$needed" >/dev/null; then
        echo "skipped: no $needed (packages dpkg, binutils, make)"
        exit 0
    fi
done
if [ ! -x "$top/bin/romtyalig" ]; then
    echo "no program at $top/bin/romtyalig" >&2
    exit 2
fi

work=$(mktemp -d) || exit 2
trap 'rm -rf "$work"' EXIT
trap 'exit 2' HUP INT TERM
cd "$work" || exit 2
differ=0
# What is shown, and the function that shows it, with its words.
row() {
    local name=$1
    shift
    if "$@" >said 2>&1; then
        echo "same: $name"
    else
        echo "DIFFERS: $name"
        sed 's/^/    /' said | head -n 20
        differ=$((differ + 1))
    fi
}

# One time for both builds, also outside a clone, or where something is committed meanwhile.
: "${SOURCE_DATE_EPOCH:=$(git -C "$top" log -1 --format=%ct 2>/dev/null || date +%s)}"
export SOURCE_DATE_EPOCH

built() { package=$("$top/packaging/deb.sh" "$work/once") && dpkg-deb -x "$package" "$work/root" && [ -s "$package" ]; }
again() { cmp "$("$top/packaging/deb.sh" "$work/twice")" "$package"; }
sample() {
    local folder=$1 capture=$1/usr/share/doc/romtyalig/examples/web-exchange.pcap
    "$folder/usr/bin/romtyalig" meter <"$capture" >flows.ipfix && "$top/bin/romtyalig" meter <"$capture" | cmp - flows.ipfix &&
        "$folder/usr/bin/romtyalig-pair" pair <flows.ipfix >biflows.ipfix && [ -s biflows.ipfix ]
}
# Installs the package into a folder that has no other, so without libc6, whatever this system's settings leave out.
install_there() {
    mkdir -p target/var/lib/dpkg/info target/var/lib/dpkg/updates
    : >target/var/lib/dpkg/status
    dpkg --root="$work/target" --log="$work/log" --force-not-root --force-depends --path-include='*' --install "$package" >told 2>&1
}
installed() {
    cat told
    # shellcheck disable=SC2016 # a field of dpkg's
    [ "$(dpkg-query --admindir=target/var/lib/dpkg -Wf '${db:Status-Abbrev}' romtyalig)" = "ii " ]
}
named() {
    root/usr/bin/romtyalig show <flows.ipfix >lines && root/usr/bin/romtyalig-named <lines >names &&
        [ "$(grep -c '^sourceIPv4Address=' names)" -eq 4 ] && root/usr/bin/romtyalig-named --line <lines | grep -q '^10.0.0.5:'
}
library() {
    local program programs=()
    mkdir debian && echo "Source: romtyalig" >debian/control || return
    for program in root/usr/bin/*; do
        head -c 4 "$program" | grep -q ELF && programs+=(-e"$program")
    done
    dpkg-shlibdeps -O "${programs[@]}" >wanted 2>said-there && [ "${#programs[@]}" -eq 6 ] &&
        [ "$(sed -n 's/^shlibs:Depends=//p' wanted), python3" = "$(dpkg-deb -f "$package" Depends)" ]
}
# The paths that a document names, in the repository's folders or the package's own, are there.
documents() {
    local path missing=0
    for path in $(grep -ohE '\b(bench|bin|checks|completions|crates|docs|examples|man|packaging|tools)/[A-Za-z0-9_./-]*[A-Za-z0-9_]' \
        root/usr/share/doc/romtyalig/README.md root/usr/share/doc/romtyalig/docs/*.md | sort -u) \
        $(grep -ohE '\]\([^)#]+' root/usr/share/doc/romtyalig/docs/*.md | sed 's,..,docs/,' | grep -v '://' | sort -u); do
        [ -e "root/usr/share/doc/romtyalig/$path" ] || [ -e "root/usr/share/$path" ] || { echo "no $path"; missing=1; }
    done
    return "$missing"
}
report() { root/usr/share/doc/romtyalig/examples/report.sh flows.ipfix biflows.ipfix | grep -q '</html>'; }
pages() {
    local version program
    version=$(sed -n 's/^Version: //p' "$top/packaging/control")
    [ "$(dpkg-deb -f "$package" Version)" = "$version" ] || return 1
    zcat root/usr/share/doc/romtyalig/changelog.gz | head -n 1 | grep -qF "($version)" || return 1
    for program in root/usr/bin/*; do
        zcat "root/usr/share/man/man1/$(basename "$program").1.gz" | grep -qFx ".Os Romtyalig $version" ||
            { echo "$(basename "$program"): no page of this version"; return 1; }
    done
}
completions() {
    local program name options
    for program in "$top"/completions/*.bash "$top"/completions/_*; do
        name=$(basename "$program" .bash)
        [ -s "root/usr/share/bash-completion/completions/$name" ] || [ -s "root/usr/share/zsh/vendor-completions/$name" ] ||
            { echo "$name isn't there"; return 1; }
    done
    # shellcheck disable=SC2034 # the completions read it
    options=$(find root/usr/share/zsh/vendor-completions root/usr/share/bash-completion/completions -type f | wc -l)
    [ "$options" -eq "$(find "$top/completions" -type f | wc -l)" ]
}
clean() { timeout 300 lintian --allow-root --fail-on error,warning --tag-display-limit 0 "$package"; }

row "the package is built" built
if [ "$differ" -eq 0 ]; then
    row "a second build" again
    row "the sample by the programs of the package" sample root
    if ! install_there && grep -qE 'superuser|not permitted|Permission denied' told; then
        echo "skipped: the package installed into a folder, dpkg has no right to"
    else
        row "the package is installed into a folder" installed
        row "the sample by the programs installed there" sample target
    fi
    row "pages and version" pages
    row "completions" completions
    row "what the documents name" documents
    if command -v dpkg-shlibdeps >/dev/null; then row "the version of libc6" library; else echo "skipped: no dpkg-shlibdeps"; fi
    if command -v python3 >/dev/null; then row "romtyalig-named of the package" named; else echo "skipped: no python3"; fi
    if command -v ipfix2csv >/dev/null && command -v mlr >/dev/null && command -v gnuplot >/dev/null; then
        row "report.sh of the package" report
    else
        echo "skipped: no ipfix2csv, mlr or gnuplot"
    fi
    if command -v lintian >/dev/null; then row "lintian" clean; else echo "skipped: no lintian"; fi
fi
[ "$differ" -eq 0 ]
