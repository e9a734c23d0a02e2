#!/bin/sh
# package.sh [--released] [VERSION]: makes in the folder out/ a tarball and a Debian package of what install.sh installs,
# with the documents as HTML too. The programs are the proved ones, or with --released those of release/. VERSION is the
# day, the time and the name of its commit where none is given. The same sources give the same two files.
# Needs git, binutils, cmark-gfm, dpkg and Python 3.9.
set -eu
umask 022
released=
if [ "${1-}" = --released ]; then
    released=$1
    shift
fi
cd "$(dirname "$0")"

refuse() { # TEXT [STATUS]
    echo "package.sh: $1" >&2
    exit "${2-1}"
}
usage="usage: ./package.sh [--released] [VERSION]"
[ $# -le 1 ] || refuse "$usage" 64
for command in readelf objdump cmark-gfm dpkg-deb python3; do
    command -v $command >/dev/null || refuse "there is no command $command: it needs binutils, cmark-gfm, dpkg and python3"
done
if [ -n "$released" ]; then
    program=$(scripts/released-program) || exit 1
    about=$(cat release/VERSION)
else
    program=$(scripts/proved-program) || exit 1
    about=$(scripts/version)
fi
said() { echo "$about" | sed -n "s/^$1 //p"; }
commit=$(said commit | cut -c 1-40)
# the time puts two packages of one day in their order
time=$(TZ=UTC0 git log -1 --format=%cd --date=format-local:.%H%M "$commit" 2>/dev/null) || time=
version=${1-$(said day | tr -d -)$time+git$(echo "$commit" | cut -c 1-8)}
case $version in
[!0-9]* | '') refuse "$usage (a version begins with a digit)" 64 ;;
*[!A-Za-z0-9.+~]*) refuse "a version has letters, digits and . + ~ alone: $version" 64 ;;
esac

needs=$(scripts/needs "$program")
need() { echo "$needs" | sed -n "s/^$1 //p"; }
glibc=$(need glibc)
processor=$(need processor)
case $(need loader):$(need library | paste -sd , -) in
/lib64/ld-linux-x86-64.so.2:libc.so.6) system=x86_64 architecture=amd64 ;;
/lib/ld-linux-aarch64.so.1:libc.so.6 | /lib/ld-linux-aarch64.so.1:libc.so.6,ld-linux-aarch64.so.1) system=arm64 architecture=arm64 ;;
*) refuse "the program needs more than the C library of x86-64 or arm64:
$needs" ;;
esac
judge=
if [ -z "$released" ]; then
    judge=$(scripts/proved-program mic_check) || exit 1
elif [ -n "$(find release -name 'mic-check-*')" ]; then
    judge=$(scripts/released-program --check) || exit 1
fi
level() { grep -E '^(glibc|processor) '; }
[ -z "$judge" ] || [ "$(scripts/needs "$judge" | level)" = "$(echo "$needs" | level)" ] || refuse "mic-check needs another machine than mic:
$(scripts/needs "$judge")"
for phrase in "glibc $glibc" "$processor"; do
    grep -q "${phrase}[^0-9.]" README.md || refuse "the program needs $phrase, and README.md does not say so"
done

SOURCE_DATE_EPOCH=${SOURCE_DATE_EPOCH-$(date -u -d "$(said day)" +%s)}
export SOURCE_DATE_EPOCH
stage=$(mktemp -d)
trap 'rm -rf "$stage"' EXIT
name=mic-$version-linux-$system
mkdir -p out
same() { # FOLDER: what the day of packing would make differ
    find "$1" -exec touch -h -d "@$SOURCE_DATE_EPOCH" {} +
}

# the tarball: one folder, to be unpacked over a prefix
# shellcheck disable=SC2086 # no word at all where it is empty
./install.sh $released "$stage/$name" >"$stage/installed" 2>&1 || refuse "$(cat "$stage/installed")"
scripts/html-documents "$stage/$name/share/mic"
(cd "$stage/$name" && find . ! -type d | sed 's,^\./,,' | LC_ALL=C sort >"$stage/installed")
mv "$stage/installed" "$stage/$name/share/mic/installed.txt"
same "$stage/$name"
tar --sort=name --owner=0 --group=0 --numeric-owner --format=gnu -C "$stage" -cf - "$name" | gzip -9n >"out/$name.tar.gz"

# the Debian package
deb=$stage/deb
share=$deb/usr/share
mkdir -p "$deb/DEBIAN"
cp -r "$stage/$name" "$deb/usr"
rm "$share/mic/installed.txt" # dpkg knows what it installed
gzip -9n "$share"/man/man1/*.1
mv "$share/zsh/site-functions" "$share/zsh/vendor-completions" # where Debian's zsh looks
mkdir -p "$share/doc/mic" "$share/lintian/overrides"
ln -s ../../mic "$share/doc/mic/manual"
cp "$share/mic/LICENSE" "$share/doc/mic/copyright"
maintainer="Hepnayog maintainers <maintainers@users.noreply.hepnayog.example>"
gzip -9n >"$share/doc/mic/changelog.gz" <<END
mic ($version) unstable; urgency=medium

  * Made of commit $(said commit).

 -- $maintainer  $(LC_ALL=C date -u -d "@$SOURCE_DATE_EPOCH" '+%a, %d %b %Y %H:%M:%S +0000')
END
cat >"$share/lintian/overrides/mic" <<END
# the very files that were proved are installed, so that one sum shows that it is such a file
mic: unstripped-binary-or-object [usr/bin/mic]
mic: unstripped-binary-or-object [usr/bin/mic-check]
END
cat >"$deb/DEBIAN/control" <<END
Package: mic
Version: $version
Architecture: $architecture
Maintainer: $maintainer
Section: education
Priority: optional
Depends: libc6 (>= $glibc)
Recommends: python3 (>= 3.9)
Suggests: rlwrap
Installed-Size: $(du -sk --apparent-size "$deb/usr" | cut -f 1)
Description: simulator of the machines of Tanenbaum's book, Mic-1, Mic-2 and Mic-3
 It assembles, links and verifies programs for the stack machine IJVM, compiles
 programs in the small language Tiny, places microprograms written in MAL, and
 clocks the datapaths of Mic-1, Mic-2 and Mic-3 one cycle after another. It is
 proved to compute what the definition of IJVM says.
 .
 mic-check proves of a microprogram that it interprets IJVM, or shows where
 that is not known.
 .
 The documents, examples and exercises are in /usr/share/mic. Scripts in Python
 (mic-grade, mic-waves and others) grade submissions and show what a run does.
 mic needs a processor of the kind $processor.
END
flags=
case $processor in
x86-64-v2) flags='cx16 lahf_lm popcnt pni ssse3 sse4_1 sse4_2' ;;
x86-64-v3) flags='cx16 lahf_lm popcnt pni ssse3 sse4_1 sse4_2 abm avx avx2 bmi1 bmi2 f16c fma movbe' ;;
x86-64-v4) flags='avx512f avx512bw avx512cd avx512dq avx512vl' ;;
esac
[ -z "$flags" ] || cat >"$deb/DEBIAN/preinst" <<END
#!/bin/sh
# refuses a processor on which mic would end by an illegal instruction
set -e
found=\$(sed -n '/^flags[[:space:]]*:/{s/.*://;p;q;}' /proc/cpuinfo 2>/dev/null || true)
[ -n "\$found" ] || exit 0
for flag in $flags; do
    case " \$found " in
    *" \$flag "*) ;;
    *)
        echo "mic needs a processor of the level $processor, and this one has no \$flag" >&2
        exit 1
        ;;
    esac
done
END
[ -z "$flags" ] || chmod 755 "$deb/DEBIAN/preinst"
(cd "$deb" && find usr -type f | LC_ALL=C sort | xargs -d '\n' md5sum) >"$deb/DEBIAN/md5sums"
same "$deb"
dpkg-deb --root-owner-group -Zxz --build "$deb" "out/mic_${version}_$architecture.deb" >/dev/null

echo "$needs"
echo "out/$name.tar.gz"
echo "out/mic_${version}_$architecture.deb"
