#!/usr/bin/env bash
# Words with capitals as headwords read shows them, by the samples and by letters that are no capitals; the command through a link and from another folder;
# and what tools/command says where a tool is missing.
set -eu
cd "$(dirname "$0")/.."
tools/command
root=$PWD
work=$(mktemp -d)
trap 'rm -rf "$work"' EXIT
ln -s "$root/target/cargo/release/headwords" "$work/"
cd "$work"

# ends STATUS COMMAND...: whether it ends with that status
ends() {
    local status=0
    "${@:2}" >said 2>&1 || status=$?
    [ "$status" -eq "$1" ] || { cat said; echo "${*:2}: status $status, not $1"; exit 1; }
}

# The lexical letters Z and Q of spanish are letters, so that the capitals Z and Q are not folded to z and q; and à is no letter of a written word.
sed 's/^LEXICON Stem$/&\n  àrbol Noun2 "árbol"/' "$root/grammars/spanish.txt" >arbol.txt
ends 0 ./headwords read -q arbol.txt Árbol ÁRBOLES Luz LUCES LUZ Zona Querer BLOQUES ÀRBOL
sed '/^$/d' said | diff - <(printf '%s\n' \
    'Árbol	árbol	àrbol (árbol) 0 (singular)	à:á r:r b:b o:o l:l' \
    'ÁRBOLES	árbol	àrbol (árbol) +es (plural)	à:á r:r b:b o:o l:l +:0 e:e s:s' \
    'Luz	luz	luZ (luz) 0 (singular)	l:l u:u Z:z' \
    'LUCES	luz	luZ (luz) +es (plural)	l:l u:u Z:c +:0 e:e s:s' \
    'LUZ	+?' 'Zona	+?' 'Querer	+?' 'BLOQUES	+?' 'ÀRBOL	+?')

# by an image and its names the same
./headwords assemble arbol.txt arbol.img
cp said by_text
ends 0 ./headwords read -q arbol.img Árbol ÁRBOLES Luz LUCES LUZ Zona Querer BLOQUES ÀRBOL
diff by_text said

# with a letter that is no capital in the place of Z, LUZ is read
sed 's/Z/ʒ/g' "$root/grammars/luz.txt" >other.txt
ends 0 ./headwords read -q other.txt LUZ
sed '/^$/d' said | diff - <(echo 'LUZ	luz	luʒ (luz) 0 (singular)	l:l u:u ʒ:z')
ends 1 ./headwords read nothing.txt luces
grep -q '^nothing.txt:0: cannot be read: ' said
echo "headwords read: as stored"

mkdir few
for tool in bash dirname realpath; do
    ln -s "$(command -v $tool)" few/
done
ends 2 env PATH="$work/few" "$root/tools/command"
[ "$(grep -c '^not found on PATH: ' said)" -eq 3 ]
ends 2 env PATH="$work/few" "$root/tools/prove" lines
grep -q '^not found on PATH: rt, ' said
echo "tools that are missing: named"
