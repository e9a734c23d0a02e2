#!/bin/sh
# install.sh [--released | --uninstall] [PREFIX]: puts the proved mic under PREFIX, /usr/local where none is given: the
# programs mic and mic-check and the scripts of classroom/ (as mic-NAME) in bin, their man pages, the completions of three
# shells, and in share/mic the documents, the examples, the exercises without their solutions, and the editors' files. With
# --released the programs are those of release/, which needs no toolchain. --uninstall removes what an installation put there.
set -eu
umask 022
usage="usage: ./install.sh [--released | --uninstall] [PREFIX]"
what=proved
case ${1-} in
--released | --uninstall)
    what=${1#--}
    shift
    ;;
esac
if [ $# -gt 1 ]; then
    echo "$usage" >&2
    exit 64
fi
prefix=${1-/usr/local}
case $prefix in
/*) ;;
-* | '')
    echo "$usage (a folder whose name begins with - is written ./-name)" >&2
    exit 64
    ;;
*) prefix=$PWD/$prefix ;;
esac
prefix=${prefix%/}
cd "$(dirname "$0")"
list=share/mic/installed.txt # what lies under the prefix by an installation, a name a line

refuse() {
    echo "install.sh: $1" >&2
    exit 1
}
need_permission() { # FOLDER: refuses if files cannot be put there
    folder=$1
    while [ ! -e "$folder" ]; do folder=$(dirname "$folder"); done
    [ -d "$folder" ] || refuse "$folder is not a folder"
    [ -w "$folder" ] || refuse "no permission to write to $folder: name a folder of your own, such as ~/.local, or use sudo"
}
remove() { # the files that standard input names, and the folders that are empty without them
    while IFS= read -r file; do
        rm -f "$prefix/$file"
        (cd "$prefix/" && rmdir -p "$(dirname "$file")" 2>/dev/null) || true
    done
}
note() { # FILE: it is of this installation, also if that is broken off
    echo "$1" >>"$prefix/$list"
    echo "$1" >>"$new"
}
put() { # MODE FILE PLACE
    install -D -m "$1" "$2" "$prefix/$3"
    note "$3"
}
put_folder() { # FOLDER, and what else find asks of its files: they keep their place below share/mic
    folder=$1
    shift
    find "$folder" -type f ! -path '*/__pycache__/*' "$@" | LC_ALL=C sort | while IFS= read -r file; do
        if [ -x "$file" ]; then mode=755; else mode=644; fi
        put "$mode" "$file" "share/mic/$file"
    done
}

for folder in bin share/mic share/man share/bash-completion share/zsh share/fish; do
    need_permission "$prefix/$folder"
done
if [ "$what" = uninstall ]; then
    [ -f "$prefix/$list" ] || refuse "nothing is installed under $prefix: there is no $prefix/$list"
    remove <"$prefix/$list"
    echo "$list" | remove
    exit
fi
program=$("scripts/$what-program") || exit 1

room=$(mktemp -d)
trap 'rm -rf "$room"' EXIT
# a release may leave mic-check out
judge=
case $what in
proved) judge=$(scripts/proved-program mic_check) || exit 1 ;;
released) [ -z "$(find release -name 'mic-check-*')" ] || judge=$(scripts/released-program --check) || exit 1 ;;
esac
new=$room/installed
case $what in
released) cp release/VERSION "$room/VERSION" ;;
proved) scripts/version >"$room/VERSION" ;;
esac
day=$(sed -n 's/^day //p' "$room/VERSION")

mkdir -p "$prefix/share/mic"
put 755 "$program" bin/mic
put 644 man/mic.1 share/man/man1/mic.1
put 644 shell/mic.bash share/bash-completion/completions/mic
put 644 shell/_mic share/zsh/site-functions/_mic
put 644 shell/mic.fish share/fish/vendor_completions.d/mic.fish
if [ -n "$judge" ]; then
    put 755 "$judge" bin/mic-check
    put 644 man/mic-check.1 share/man/man1/mic-check.1
    put 644 shell/mic-check.bash share/bash-completion/completions/mic-check
    put 644 shell/_mic-check share/zsh/site-functions/_mic-check
    put 644 shell/mic-check.fish share/fish/vendor_completions.d/mic-check.fish
fi
for file in README.md CONTRIBUTING.md CHANGELOG.md LICENSE benchmarks/README.md release/*.html; do
    [ ! -f "$file" ] || put 644 "$file" "share/mic/$file"
done
put_folder docs
put_folder examples
put_folder editors
put_folder classroom ! -name 'solution.*'
put 644 "$room/VERSION" share/mic/VERSION
for script in classroom/*; do
    if [ -d "$script" ] || [ ! -x "$script" ]; then continue; fi
    command=mic-$(basename "$script")
    ln -sfn "../share/mic/$script" "$prefix/bin/$command"
    note "bin/$command"
    scripts/man-page "$script" "$day" >"$room/page"
    put 644 "$room/page" "share/man/man1/$command.1"
done

grep -vxFf "$new" "$prefix/$list" | remove # what an earlier installation had, and this one has not
cp "$new" "$prefix/$list"
chmod 644 "$prefix/$list"
grep ^bin/ "$new" | while IFS= read -r file; do echo "$prefix/$file"; done
echo "$prefix/share/mic (README.md, docs, examples, classroom; installed.txt names all $(wc -l <"$new") files)"

warn() {
    echo "install.sh: $1" >&2
}
case :$PATH: in
*:"$prefix/bin":*) ;;
*) warn "$prefix/bin is not in PATH; until it is, call $prefix/bin/mic" ;;
esac
python3 -c 'import sys; sys.exit(sys.version_info < (3, 9))' 2>/dev/null ||
    warn "mic-grade and the other scripts need Python 3.9 or later, which is not here; mic does not"
[ ! -d "$prefix/share/doc/mic/classroom" ] || warn "$prefix/share/doc/mic is of an earlier installation, and nothing uses it now"
