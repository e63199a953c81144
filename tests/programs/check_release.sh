#!/usr/bin/env bash
# check_release.sh OUT: tries the results of tools/release in OUT, without the kit. From the archive, in a fresh folder and with an empty environment, a
# disk is listed, read, written and checked, a script is run, and an example is linked by pkg-config. The module, the C file and the library for aarch64 do
# the same as the library, if node, cc and qemu are installed. The conformance suite's disk is listed and checked. The packages are installed into an empty
# root, replace older ones, and are removed without a trace.
set -eu
out=$(cd "$1" && pwd)
top=$(cd "$(dirname "$0")/../.." && pwd)
room=$(mktemp -d)
trap 'rm -rf "$room"' EXIT
there() { for it; do command -v "$it" > /dev/null || { echo "release: no $it here, so $what isn't tried"; return 1; }; done; }
# A program with no environment but the path of the system's own programs.
bare() { env -i PATH=/usr/bin:/bin "$@"; }
unpacked() { mkdir -p "$room/$1"; tar -xf "$out"/yellowadze1541-*-"$1".tar.xz -C "$room/$1" --strip-components=1; }

(cd "$out" && sha256sum --quiet -c SHA256SUMS)

# A list, a read, a write and a check with the programs of a folder.
uses() {
    mkdir "$room/disk"
    cp "$top"/examples/hello.* "$room/disk"
    (
        cd "$room/disk"
        bare "$1/disk1541" list hello.d64 > list.txt
        grep -q '"HELLO" *PRG' list.txt
        bare "$1/disk1541" get hello.d64 HELLO -o hello.prg
        cp hello.prg again.prg
        bare "$1/disk1541" put hello.d64 again.prg
        bare "$1/disk1541" get hello.d64 AGAIN -o new.prg
        cmp new.prg hello.prg
        bare "$1/disk1541" check hello.d64 > check.txt
        grep -qx sound check.txt
        bare "$1/drive1541" hello.d64 hello.script out.d64 > script.txt
        grep -qx 'get 0 010203 eoi' script.txt
    )
    rm -r "$room/disk"
}

unpacked x86_64-linux
here=$room/x86_64-linux
uses "$here/bin"
image=$top/examples/hello.d64 source=$top/examples/c/emulator_loop.c
what="an example with pkg-config"
if there cc pkg-config; then
    # shellcheck disable=SC2046
    cc -I"$top/examples/c" -o "$room/loop" "$source" $(PKG_CONFIG_PATH=$here/lib/pkgconfig pkg-config --cflags --libs yellowadze1541)
    bare LD_LIBRARY_PATH="$here/lib" "$room/loop" "$image" > /dev/null
    cc -I"$top/examples/c" -I"$here/include" -o "$room/loop" "$source" "$here/lib/libyellowadze1541.a"
    bare "$room/loop" "$image" > "$room/native.txt"
fi
what="the C file"
if [ -e "$out"/yellowadze1541-*-c.tar.xz ] && there cc; then
    unpacked c
    cc -O0 -w -I"$room/c" -I"$room/c/examples" -o "$room/loop" "$room/c/examples/emulator_loop.c" "$room/c/yellowadze1541.c"
    bare "$room/loop" "$image" | cmp - "$room/native.txt"
fi
what="the library for aarch64"
if [ -e "$out"/yellowadze1541-*-aarch64-linux.tar.xz ] && there aarch64-linux-gnu-gcc qemu-aarch64; then
    unpacked aarch64-linux
    arm=$room/aarch64-linux
    aarch64-linux-gnu-gcc -I"$top/examples/c" -I"$arm/include" -o "$room/loop" "$source" "$arm/lib/libyellowadze1541.a"
    qemu-aarch64 -L /usr/aarch64-linux-gnu "$room/loop" "$image" | cmp - "$room/native.txt"
fi
what="the module"
if [ -e "$out"/yellowadze1541-*-wasm.tar.xz ] && there node; then
    unpacked wasm
    # (as npm installs a folder)
    mkdir "$room/node_modules"
    ln -s "$room/wasm" "$room/node_modules/yellowadze1541"
    cat > "$room/list.mjs" <<'MJS'
import { readFile } from "node:fs/promises";
import { load } from "yellowadze1541";
import { text, unpadded } from "yellowadze1541/petscii";
const y1541 = await load();
const image = y1541.put(new Uint8Array(await readFile(process.argv[2])), "new,p,w", Uint8Array.of(1, 8, 7));
y1541.check(image);
const { blocks, name } = y1541.entry(image, 1);
console.log(text(unpadded(name), "upper"), blocks, [...y1541.file(image, "NEW")].join(" "));
MJS
    [ "$(bare "$(command -v node)" "$room/list.mjs" "$image")" = 'NEW 1 1 8 7' ]
fi

what="the page"
if ls "$out"/yellowadze1541-*-page.tar.xz > /dev/null 2>&1; then
    unpacked page
    [ -s "$room/page/disks.html" ] && [ -s "$room/page/site/index.html" ] && [ -s "$room/page/site/yellowadze1541.wasm" ]
fi
what="the conformance suite"
if ls "$out"/yellowadze1541-*-suite.tar.xz > /dev/null 2>&1; then
    unpacked suite
    bare "$here/bin/disk1541" list "$room/suite/suite.d64" > "$room/suite.txt"
    grep -q '"SUITE64" *PRG' "$room/suite.txt" && grep -q '"SUITE20" *PRG' "$room/suite.txt"
    bare "$here/bin/disk1541" check "$room/suite/suite.d64" > "$room/suite.txt"
    grep -qx sound "$room/suite.txt"
    [ -s "$room/suite/cases.txt" ] && [ -s "$room/suite/conformance.md" ] && [ -s "$room/suite/sources/main.c" ]
fi
what="the wheel"
if ls "$out"/yellowadze1541-*.whl > /dev/null 2>&1 && there python3; then
    python3 -m venv "$room/venv" && "$room/venv/bin/python" -m pip install --quiet --no-index "$out"/yellowadze1541-*.whl
    [ "$(bare "$room/venv/bin/python" -c 'import sys; from yellowadze1541 import Image; print(Image.open(sys.argv[1]).files()[0].text())' "$image")" = HELLO ]
fi

# The packages in an empty root: older ones, these, none.
what="the Debian packages"
if ls "$out"/*.deb > /dev/null 2>&1 && there dpkg dpkg-deb; then
    root=$room/root
    mkdir -p "$root/var/lib/dpkg/info" "$root/var/lib/dpkg/updates" "$root/var/log" "$room/older"
    touch "$root/var/lib/dpkg/status" "$root/var/lib/dpkg/available"
    of_root() { dpkg --root="$root" --log=/dev/null --force-depends --force-not-root --force-bad-path "$@" > "$room/dpkg.txt" 2>&1 || { cat "$room/dpkg.txt"; exit 1; }; }
    before=$(cd "$root" && find . -not -path './var/lib/dpkg*' | sort)
    for it in "$out"/*.deb; do
        dpkg-deb -R "$it" "$room/raw"
        sed -i 's/^Version: .*/Version: 0.0.1/' "$room/raw/DEBIAN/control"
        dpkg-deb -b "$room/raw" "$room/older/" > /dev/null
        rm -r "$room/raw"
    done
    of_root -i "$room"/older/*.deb
    of_root -i "$out"/*.deb
    [ "$(dpkg --root="$root" -l | grep -c '^ii .*yellowadze1541')" = 3 ]
    uses "$root/usr/bin"
    if there cc; then
        cc -I"$top/examples/c" -I"$root/usr/include" -o "$room/loop" "$source" -L"$root/usr/lib/x86_64-linux-gnu" -lyellowadze1541
        bare LD_LIBRARY_PATH="$root/usr/lib/x86_64-linux-gnu" "$room/loop" "$image" | cmp - "$room/native.txt"
    fi
    of_root --purge yellowadze1541 libyellowadze1541-dev $(cd "$out" && ls libyellowadze1541-[0-9]*.deb | sed 's/_.*//')
    [ "$before" = "$(cd "$root" && find . -not -path './var/lib/dpkg*' | sort)" ] || { (cd "$root" && find .); echo "release: something of the packages is left"; exit 1; }
fi
what="what lintian says of the packages"
if ls "$out"/*.deb > /dev/null 2>&1 && there lintian; then
    lintian --fail-on error "$out"/*.deb > "$room/lintian.txt" 2>&1 || { cat "$room/lintian.txt"; exit 1; }
    echo "release: lintian has no error and $(grep -c '^W:' "$room/lintian.txt" || true) warnings"
fi
echo "release: archive, forms and packages do what they should"
