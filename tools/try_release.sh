#!/bin/sh
# Installs what tools/release.sh made in a clean Debian, and tries what a user would.
#
#     tools/try_release.sh [FOLDER [ROOT]]
#
# FOLDER is that of the release, `release` if it isn't given. It has to run as root, and wants debootstrap and a mirror
# of Debian. ROOT is a folder that debootstrap filled before, with python3; if it isn't given, or empty, one is filled.
# The checksums have to hold; then the package is installed and the tarball unpacked, and of each the examples of the
# README and of the pages for users have to print what stands there.
set -eu
folder=$(realpath "${1:-release}")
version=$(cat "$(dirname "$0")/../VERSION")
root=${2:-$(mktemp -d)}
[ -d "$root/usr" ] || debootstrap --variant=minbase --include=python3 bookworm "$root" \
    "${MIRROR:-http://deb.debian.org/debian}"
# the name `-` is /dev/stdin, which leads into /proc
mount -t proc proc "$root/proc"
trap 'umount "$root/proc"' EXIT
(cd "$folder" && sha256sum --check --strict SHA256SUMS)
rm -rf "$root/try"
mkdir "$root/try"
cp "$folder/burch-dill_${version}_"*.deb "$root/try/burch-dill.deb"
tar -xzf "$folder/burch-dill-$version-$(uname -m)-linux.tar.gz" -C "$root/try"
inside() {
    chroot "$root" /usr/bin/env -i PATH=/usr/sbin:/usr/bin:/sbin:/bin LC_ALL=C "$@"
}
wanted() {
    [ "$1" = "$2" ] || { printf 'not as wanted: %s\n' "$1" >&2; exit 1; }
}
# what each of them has: its folder, the one of its programs, and that of the rest
tried() {
    echo "the examples of $1"
    wanted "$(inside sh -c "cd $1 && PATH=$2:\$PATH && burch_dill check crates/burch_dill/data/two_stage.pipe \
        crates/burch_dill/data/two_stage.spec")" correct
    inside sh -c "cd $1 && [ -s LICENSE-MIT ] && [ -s LICENSE-APACHE ]"
    wanted "$(cat "$root$1/VERSION")" "$version"
    wanted "$(inside "$2/bd_view" --version)" "bd_view $version"
    inside bash -c ". $3/bash-completion/completions/burch_dill && complete -p bd_view" > /dev/null
    inside sh -c "[ -s $3/fish/vendor_completions.d/bd_view.fish ] && ls $3/zsh/*/_burch_dill" > /dev/null
    inside sh -c "cd $1 && python3 tools/doc_examples.py $2/burch_dill $2/bd_view README.md docs/*.md \
        docs/commands/*.md gallery/README.md"
}

inside env DEBIAN_FRONTEND=noninteractive apt-get install -y -qq -o Dpkg::Use-Pty=0 /try/burch-dill.deb
here=/usr/share/burch-dill
tried "$here" /usr/bin /usr/share
wanted "$(inside dpkg-query -W -f '${Version}' burch-dill)" "$version"
inside sh -c '[ -s /usr/share/doc/burch-dill/copyright ]'
inside sh -c "for page in $here/docs/commands/*.md; do gzip -t /usr/share/man/man1/\$(basename \$page .md).1.gz; done"
wanted "$(inside python3 -c "from burch_dill import check
data = '$here/crates/burch_dill/data/two_stage'
print(check(f'{data}.pipe', f'{data}.spec').outcome.value)")" correct
inside dpkg -r burch-dill
inside sh -c '! [ -e /usr/share/burch-dill ] && ! command -v burch_dill'

unpacked=/try/burch-dill-$version
tried "$unpacked" "$unpacked/bin" "$unpacked/share"
inside sh -c "cd $unpacked && for page in docs/commands/*.md; do \
    grep -q '^.SH NAME' share/man/man1/\$(basename \$page .md).1; done && [ -s share/man/man7/burch_dill-language.7 ]"
rm -rf "$root/try"
echo "installed, tried and removed; unpacked and tried"
