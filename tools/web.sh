#!/usr/bin/env bash
# Makes the web page: build/web/index.html, one file with the program, its companion and the gallery in it.
#
#     tools/web.sh [MODULE.bc | --unproved]
#
# The kit builds crates/bd_web for x86-64, proved, and its LLVM module is compiled once more, for WebAssembly with 64-bit
# memory, with the heap of web/heap.c; no proof covers that. With a module handed in, only that is compiled. With
# --unproved the module is made without any proof, in some minutes: enough to try the page.
set -euo pipefail

case ${1-} in
-h | --help) sed -n '2,/^set/{/^set/d;s/^# \{0,1\}//;p}' "$0" && exit ;;
esac
top=$(cd "$(dirname "$0")/.." && pwd)
kit=$(dirname "$(dirname "$(readlink -f "$(command -v rt)")")")
clang=$kit/toolchain/bin/clang
build=$top/build/web
work=$(mktemp -d)
trap 'rm -rf "$work"' EXIT
mkdir -p "$build"

# A kit whose compiler copies each module that it is given; once it has the one with the call, it does what the command
# says. The toolchain's compiler gets modules as files and leaves nothing of them.
shadow_kit() {
    local shadow=$work/kit
    mkdir -p "$shadow/bin" "$shadow/toolchain/bin"
    ln -s "$kit"/* "$shadow" 2> /dev/null || true
    ln -s "$kit"/toolchain/* "$shadow/toolchain" 2> /dev/null || true
    ln -s "$kit"/bin/* "$shadow/bin"
    ln -s "$kit"/toolchain/bin/* "$shadow/toolchain/bin"
    rm "$shadow"/bin/rt "$shadow"/bin/rtlib.py "$shadow/toolchain/bin/clang"
    cp "$kit"/bin/rt "$kit"/bin/rtlib.py "$shadow/bin"
    cat > "$shadow/toolchain/bin/clang" << EOF
#!/usr/bin/env bash
for word in "\$@"; do case \$word in *.bc) cp "\$word" "$work/module.bc" ;; esac; done
if grep -qsa bd_web_run "$work/module.bc"; then $1; fi
exec -a "\$0" "$clang" "\$@"
EOF
    chmod +x "$shadow/toolchain/bin/clang"
}

module_of_crate() {
    shadow_kit true
    (cd "$top/crates/bd_web" && rm -f out/libbd_web.a && "$work/kit/bin/rt" lib)
}

# `rt try` compiles a crate's tests before any proof. So a copy of the crate gets a test that makes the call, and the
# compiler stops once it has the module.
unproved_module() {
    mkdir "$work/copy"
    tar -C "$top" --exclude='crates/*/out' -cf - crates crates.txt | tar -C "$work/copy" -xf -
    cat >> "$work/copy/crates/bd_web/src/page.rt" << 'EOF'

#[cfg(test)]
mod tests {
    use super::bd_web_run;

    #[test]
    fn is_called(rt: HostRuntime) {
        let (mut back, mut lengths, mut count) = ([0u8; 1], [0usize; 1], 0usize);
        let _ = bd_web_run(rt.alloc(), &[], &[], 0, &mut back, &mut lengths, &mut count);
    }
}
EOF
    shadow_kit "exit 1"
    (cd "$work/copy/crates/bd_web" && "$work/kit/bin/rt" try --test) > "$work/try.log" 2>&1 || true
    [ -s "$work/module.bc" ] || { cat "$work/try.log"; exit 1; }
}

case ${1-} in
"") module_of_crate ;;
--unproved) unproved_module ;;
*) cp "$1" "$work/module.bc" ;;
esac

wasm=(--no-default-config --target=wasm64-unknown-unknown -mcpu=lime1)

# The module as a text for the other target: its layout of data, its triple and its processor in the place of x86-64's, no
# probes of the stack, and the page's call exported. In a module of tests that call is internal, and `main` isn't wanted.
"$clang" --no-default-config --target=x86_64-unknown-linux-gnu -x ir "$work/module.bc" -S -emit-llvm \
    -Xclang -disable-llvm-passes -o "$work/module.ll" 2> "$work/text.log" || { cat "$work/text.log"; exit 1; }
echo 'int none(void) { return 0; }' > "$work/none.c"
"$clang" "${wasm[@]}" -S -emit-llvm -O0 "$work/none.c" -o "$work/none.ll"
layout=$(grep '^target datalayout' "$work/none.ll")
triple=$(grep '^target triple' "$work/none.ll")
sed -i -E "s|^target datalayout.*|$layout|; s|^target triple.*|$triple|
    s/ \"probe-stack\"=\"[^\"]*\"//g; s/ \"stack-probe-size\"=\"[^\"]*\"//g
    s/ \"target-cpu\"=\"[^\"]*\"/ \"target-cpu\"=\"lime1\"/g; s/ \"target-features\"=\"[^\"]*\"//g
    s/@\"bd_web::page::bd_web_run\"/@bd_web_run/g; s/^define internal (.*@bd_web_run\()/define \1/
    s/^define i32 @main\(/define internal i32 @main(/
    s/^(define [^@]*@)(bd_web_run)(\(.*\)) (#[0-9]+) \{/\1\2\3 \4 \"wasm-export-name\"=\"\2\" {/" "$work/module.ll"
grep -q '^define .*"wasm-export-name"="bd_web_run" {' "$work/module.ll" || {
    echo "the module doesn't export bd_web_run" >&2
    exit 1
}
if grep -o '@llvm\.x86[a-z0-9._]*' "$work/module.ll" | sort -u | grep .; then
    echo "the module uses what only x86-64 has" >&2
    exit 1
fi

"$clang" "${wasm[@]}" -mllvm -expand-div-rem-bits=64 -mllvm -trap-unreachable -ffunction-sections -fdata-sections -O3 \
    -c -x ir "$work/module.ll" -o "$work/module.o" 2> "$work/object.log" || { cat "$work/object.log"; exit 1; }
"$clang" "${wasm[@]}" -ffreestanding -nostdinc -O2 -c "$top/web/heap.c" -o "$work/heap.o"
"$kit/toolchain/bin/llvm-ar" rcs "$work/bd_web.a" "$work/module.o" "$work/heap.o"
"$kit/bin/rattle-link" --target wasm64-unknown-unknown --toolchain "$kit/toolchain" --stack 16777216 \
    -o "$build/bd_web.wasm" "$work/bd_web.a"
python3 "$top/tools/web_page.py" "$build/bd_web.wasm" "$build/index.html"
ls -l "$build"
