#!/bin/sh
# Makes a release from the programs that `rt ci` built: a tarball, a Debian package and their checksums.
#
#     tools/release.sh [FOLDER]        puts them into FOLDER, which is `release` if it isn't given
#
# The programs are crates/*/out/burch_dill and bd_view, or those that BURCH_DILL and BD_VIEW name, and go in byte for
# byte. The same tree and programs give the same files; their time is that of the last commit, or SOURCE_DATE_EPOCH.
# It wants python3, and dpkg-deb for the package. tools/try_release.sh tries both in a clean root.
set -eu
umask 022
cd "$(dirname "$0")/.."
export LC_ALL=C PYTHONDONTWRITEBYTECODE=1
: "${BURCH_DILL:=$PWD/crates/burch_dill/out/burch_dill}" "${BD_VIEW:=$PWD/crates/bd_view/out/bd_view}"
export BURCH_DILL BD_VIEW
version=$(cat VERSION)
name=burch-dill-$version
epoch=${SOURCE_DATE_EPOCH:-$(git log -1 --format=%ct)}
machine=$(uname -m)
folder=$(mkdir -p "${1:-release}" && cd "${1:-release}" && pwd)
work=$(mktemp -d)
trap 'rm -rf "$work"' EXIT

for program in "$BURCH_DILL" "$BD_VIEW"; do
    [ -x "$program" ] || { echo "no program $program: run rt ci first" >&2; exit 1; }
done
# the words of the completions and the pages are those of these programs
(cd tools && python3 -m unittest -q test_surface)
PYTHONPATH=python/src python3 -m unittest discover -q -s python/tests -p test_package.py
answer=$("$BURCH_DILL" check crates/burch_dill/data/two_stage.pipe crates/burch_dill/data/two_stage.spec)
[ "$answer" = correct ] || { echo "two_stage: $answer" >&2; exit 1; }

# what both have: documents, examples, the Python package's sources, laid out as in the repository, so that the commands
# of the documents run there
shared() {
    mkdir -p "$1/crates/burch_dill" "$1/tools"
    cp README.md CHANGELOG.md CONTRIBUTING.md LICENSE-MIT LICENSE-APACHE VERSION pyproject.toml "$1"
    cp -R docs examples gallery "$1"
    cp -R crates/burch_dill/data "$1/crates/burch_dill"
    mkdir "$1/python"
    cp -R python/src "$1/python"
    find tools -maxdepth 1 -name '*.py' -exec cp {} "$1/tools" \; -o -name '*.c' -exec cp {} "$1/tools" \;
    find "$1" \( -name __pycache__ -o -name '*.egg-info' \) -prune -exec rm -rf {} +
}

completions() {
    mkdir -p "$1/bash-completion/completions" "$1/zsh/$2" "$1/fish/vendor_completions.d"
    for program in burch_dill bd_view; do
        python3 tools/surface.py bash > "$1/bash-completion/completions/$program"
        python3 tools/surface.py fish > "$1/fish/vendor_completions.d/$program.fish"
    done
    python3 tools/surface.py zsh > "$1/zsh/$2/_burch_dill"
}

settled() {
    find "$1" -type d -exec chmod 755 {} +
    find "$1" -exec touch -h -d "@$epoch" {} +
}

packed() {
    tar --sort=name --owner=0 --group=0 --numeric-owner --mtime="@$epoch" -C "$1" -cf - "$2" | gzip -9n
}

# ---- the tarball

top=$work/tarball/$name
mkdir -p "$top/bin"
shared "$top"
cp "$BURCH_DILL" "$top/bin/burch_dill"
cp "$BD_VIEW" "$top/bin/bd_view"
chmod 755 "$top/bin/"*
python3 tools/manual.py "$top/share/man/man1"
mkdir "$top/share/man/man7"
mv "$top"/share/man/man1/*.7 "$top/share/man/man7"
completions "$top/share" site-functions
settled "$top"
packed "$work/tarball" "$name" > "$folder/$name-$machine-linux.tar.gz"

# ---- the Debian package

if command -v dpkg-deb > /dev/null; then
    root=$work/package
    architecture=$(dpkg --print-architecture)
    mkdir -p "$root/DEBIAN" "$root/usr/bin" "$root/usr/share/burch-dill" "$root/usr/share/doc/burch-dill" \
        "$root/usr/lib/python3/dist-packages"
    cp "$top/bin/"* "$root/usr/bin"
    shared "$root/usr/share/burch-dill"
    cp -R "$top/share/man" "$root/usr/share/man"
    find "$root/usr/share/man" -type f -exec gzip -9n {} +
    completions "$root/usr/share" vendor-completions
    cp -R "$top/python/src/burch_dill" "$root/usr/lib/python3/dist-packages"
    gzip -9nc CHANGELOG.md > "$root/usr/share/doc/burch-dill/changelog.gz"
    {
        echo "burch_dill $version, by the burch_dill authors. MIT or Apache-2.0, as you like."
        echo
        cat LICENSE-MIT
        echo
        echo "On Debian systems the Apache License 2.0 is in /usr/share/common-licenses/Apache-2.0."
    } > "$root/usr/share/doc/burch-dill/copyright"
    size=$(du -sk "$root/usr" | cut -f1)
    libc=$(grep -aohE 'GLIBC_2\.[0-9]+' "$BURCH_DILL" "$BD_VIEW" | sort -V | tail -n 1 | cut -d_ -f2)
    sed "s/@VERSION@/$version/; s/@ARCHITECTURE@/$architecture/; s/@SIZE@/$size/; s/@LIBC@/$libc/" \
        > "$root/DEBIAN/control" << 'END'
Package: burch-dill
Version: @VERSION@
Section: electronics
Priority: optional
Architecture: @ARCHITECTURE@
Installed-Size: @SIZE@
Depends: libc6 (>= @LIBC@), libgcc-s1
Suggests: python3, cadical
Maintainer: The burch_dill authors <burch_dill@users.noreply.invalid>
Description: verifier of pipelined processors, proved to mean what it says
 Given the texts of a pipelined processor and of its instruction set machine, it
 says whether the flushed pipeline always stands where that machine stands, by
 the method of Burch and Dill. Its answers are proved: a proof is checked line by
 line, and a counterexample is a case that can be replayed and drawn.
 .
 The package has the programs burch_dill and bd_view, the Python package
 burch_dill, the documents and a gallery of machines, in /usr/share/burch-dill.
END
    chmod 644 "$root/DEBIAN/control"
    printf '#!/bin/sh\nfind /usr/lib/python3/dist-packages/burch_dill -name __pycache__ -prune -exec rm -rf {} +\n' > "$root/DEBIAN/prerm"
    chmod 755 "$root/DEBIAN/prerm"
    settled "$root"
    SOURCE_DATE_EPOCH=$epoch dpkg-deb --root-owner-group -Zxz --build "$root" \
        "$folder/burch-dill_${version}_$architecture.deb" > /dev/null
fi

(cd "$folder" && sha256sum -- *"$version"*.tar.gz *"$version"*.deb 2> /dev/null > SHA256SUMS || true)
cat "$folder/SHA256SUMS"
