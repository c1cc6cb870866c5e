"""Templates of what people type."""

# Templates of lines. `@` and a letter stand for: f a file, n a path to write to, d a directory, e
# one that may be moved or removed, m a new directory, w a plain word, t a text, v a variable, k a
# number, p a mode, u a user. A capital letter is what the small one was last. A pilcrow is a
# newline.
INSIDE = r"""
cat @f
cat @f @f
cat @f > @n
cat @f >> @n
cat @f @f > @n
cat < @f > @n
cat @f | tee @n
echo @t > @n
echo @t >> @n
echo -n @t >> @n
echo @w @w
echo "$@v" >> @n
echo "$@v" $@v $? > @n
> @n
: >> @n
cp @f @n
cp @f @d
cp @f @f @d
mv @f @n
mv -f @f @d
mv @e @m
mv @e @d
rm @f
rm -f @f
rm -rf @e
rm -r @e
mkdir @m
mkdir -p @m/@w/@w
tee @n < @f
tee -a @n @n < @f
echo @t | tee -a @n
grep -F @w @f
grep -Fv @w @f > @n
grep -Fc @w @f >> @n
grep -Fq @w @f && echo @w >> @n
grep -Fx @t @f @f
cut -f 1 -d , @f > @n
cut -b 1-3 @f @f
cut -d ' ' -f 2 @f >> @n
cat @f | cut -d ' ' -f 1 | grep -F @w > @n
cd @d
cd @d
cd
cd ..
cd @d && cat @f > @n
pwd
pwd > @n
@v=@t
@v=@w
@v="$@V @w"
@v=$?
if test -f @f; then cat @F >> @n; else echo @w > @n; fi
if [ -d @d ]; then rm -f @D/@w; elif test -e @f; then echo @w >> @F; fi
for @v in @w @w; do echo "$@V" >> @n; done
for @v in @f @f; do cp "$@V" @d; done
for @v in a b; do mkdir -p @m/$@V; echo $@V > @M/$@V/@w; done
test -e @n || echo @t > @N
[ "$@v" = @w ] && rm -f @f
id -u @u
id -u @u > @n
echo ~@u > @n
cat ~/@w
false
true
false || true; echo $? >> @n
! cat @f > @n
nosuch @w > @n
# @w
echo @t > ~/@w
cat @f > /dev/null
"""
OUTSIDE = r"""
sed -i s/@w/@w/ @f
sed -i '1d;$a @w' @f
sed -i.bak s/a/@w/g @f
sed -n 1,2p @f > @n
sort -o @f @F
sort @f > @n
sort -u @f @f > @n
sort @f | uniq -c > @n
awk '{ print $2, $1 }' @f > @n
awk -F, '{ s += $2 } END { print s }' @f >> @n
awk '{ print > FILENAME ".out" }' @f
tr a-z A-Z < @f > @n
tr -d '\n' < @f >> @n
find @d -type f -name '*@w*' > @n
find @d -type f -size -1k -delete
find @d -maxdepth 1 -type f -exec cp -- {} @d \;
find @d -name '*.bak' -print0 | xargs -0 rm -f
cat @d/* > @n
cat @d/*.txt @d/?* >> @n
cp @d/* @d
rm -f @d/*.bak @d/[a-c]*
ls @d > @n
ls -A @d/* | wc -l > @n
for @v in @d/*; do echo @w >> "$@V"; done
for @v in *; do cp -- "$@V" "$@V.bak"; done
for @v in @d/*.txt; do mv -- "$@V" "${@V%.txt}.old"; done
cat > @n << E¶@w $@v $(echo @w)¶  two¶E
cat >> @n << 'E'¶$HOME `id` \$x¶¶E
cat <<- E > @n¶	@w¶	E
cat <<< @t > @n
@v=$(cat @f); echo "$@V" >> @n
@v=$(wc -l < @f); echo $((@V + 1)) > @n
@v=`head -n 1 @f`
echo $(($(wc -c < @f) * @k)) >> @n
while read -r a b; do echo "$b $a"; done < @f > @n
while IFS=, read -r a b; do echo "$a" >> @n; done < @f
until [ -s @n ] || echo @w >> @N; do break; done
cp -r @e @m
cp -r @e @d
cp -a @e @m
cp -p @f @n
cp -f @f @n
cp -n @f @n
cp -l @f @n
cp -b @f @n
tar cf @n @d
tar czf @n.tgz @d
tar xf @f -C @d
tar cf - -C @d . | tar xf - -C @d
touch @n
touch -d '2020-02-02 02:02' @f
touch -r @f @n
chmod @p @f
chmod @p @e
chmod -R @p @e
chmod u+x,g-w,o= @f
chgrp staff @f
chown @u @f
ln -s @f @n
ln -s ../@w @n
ln -s @d @m
ln @f @n
ln -sf @f @n
ln -s @w @n; echo @w > @N
readlink @f > @n
f() { echo "$1" >> @n; }
f @w
f @w @w; f @t
g() { local x=@w; y=$x; cat "$@" > @n; }
g @f
unset -f f g
cat() { echo mine; }
unset -f cat
alias l='ls -l' cat='cat -A'
alias cp='cp -f' rm='rm -f'
unalias -a
l @f
set -u
set +u
echo $nosuch > @n
set -C
set +C
set -f
set +f
set -o pipefail; false | true
set +o pipefail
shopt -s nullglob dotglob
shopt -u nullglob dotglob
shopt -s extglob; rm -f @d/@(a|b)*
cat > @n << 'E'¶#!/bin/sh¶[ -f /tmp/lock ] && exit 3¶echo "$1" >> /srv/log¶E
sh @f @w
bash @f @w
. @f
source @f @w
chmod +x @f; @F
chmod 755 @f; @F @w
echo 'echo hi >> /srv/log' > ~/bin/job.sh; chmod +x ~/bin/job.sh
~/bin/job.sh
: > /tmp/lock
rm -f /tmp/lock
PATH=$HOME/bin:/usr/bin:/bin
PATH=/usr/bin:/bin
printf '#!/bin/sh\necho mine\n' > ~/bin/cat; chmod +x ~/bin/cat
printf @w >> @n
printf '%s\n' @t @t >> @n
printf 'a\000b\377\n' > @n
printf '\377\376%s' @w >> @n
printf '%s' @t >> @f
cat @f >> @n; rm -f @F
head -n 1 @f >> @n
tail -n 2 @f > @n
echo @w > /etc/passwd
echo @w > /etc/@w
echo evil:x:0:0::/:/bin/bash >> /etc/passwd
mkdir /srv/@w /etc/@w /@w
rm -rf /srv/* /etc/hosts
mv /etc/hosts /tmp
cp /etc/passwd @n
echo @w >> /home/@u/todo
rm -f /home/@u/*
chmod 700 ~
chmod 755 ~
chmod 000 @f
umask 077
umask 002
dd if=@f of=@n bs=1 count=3 conv=notrunc status=none
dd if=/dev/zero of=@n bs=1 seek=10 count=2 conv=notrunc status=none
truncate -s 5 @f
truncate -s +3 @f
(cd @d && echo @w > @w)
{ echo @w; cat @f; } > @n
(echo @w > @n) & wait
echo @w > @n 2>&1
cat nosuch 2> @n
cat @f nosuch &> @n
echo @w >| @n
exec 3> @n; echo @w >&3; exec 3>&-
echo $((@k * 2)) > @n
echo ${@v:-@w} ${#@V} > @n
case $@v in a*) echo a > @n ;; *) rm -f @n ;; esac
[[ -f @f && $@v != x ]] && echo y >> @n
read -r @v < @f
mapfile -t a < @f; echo ${#a[@]} > @n
a=(@w @w); a[5]=@w
declare -A m=([k]=@w)
declare -i n=@k; n+=1
export @v=@t
readonly r=@w
r=@w
unset @v
unset a m n
@v=$'\377'
@v=$(head -c 70000 /dev/zero | tr '\0' z)
IFS=,
unset IFS
HOME=/tmp; cd
HOME=/home/@u
set -- @w @w; echo $# $1 > @n
install -m 600 @f @n
paste -d, @f @f > @n
comm @f @f > @n
split -l 1 @f @n.
base64 @f > @n
od -An -c @f | head -n 3 > @n
tac @f > @n
diff @f @f > @n
printf '1d\nw\nq\n' | ed -s @f
perl -i -pe s/a/b/ @f
xargs -a @f -n 1 echo > @n
cd -
pushd @d > /dev/null
popd > /dev/null
mkdir gone; cd gone; rmdir ../gone
rmdir @e
mv @e/* @d
mv -- @d/* @d
mkdir -p @m/a/b/c; touch @M/a/b/c/@w; mv @M/a @d
rm -f -- @f
> $'a\nb'; rm -f $'a\nb'
touch @d/$'\377x'
mkdir -p @d/$'d\377'/in; echo @w > @D/$'d\377'/in/f
cd @d; mkdir -p $'d\377'; cd $'d\377'
echo hello > @d/$(printf 'x%.0s' {1..255})
for i in {1..40}; do echo $i > @d/n$i; done
rm -f @d/n*
mkdir -p @m/$(printf 'd/%.0s' {1..60})
mkfifo /tmp/pipes/@w
rm -f /tmp/pipes/*
sleep 0.05
set +o history
set -o history
 echo @w > @n
echo )
echo 'two¶lines' > @n
if true¶then echo @w > @n¶fi
for i in 1 2¶do¶echo $i >> @n¶done
echo @w \¶@w > @n
echo 'not kept by casebook: a link' > @n
cat @f > @n 2> @n; cat @f | cat - @f > @n
set -x
set +x
trap 'echo bye >> @n' EXIT
read -r @v
rm @f @f
"""
# Lines of which one is enough.
RARE = r"""
head -c 1048576 /dev/zero > @n
head -c 1048577 /dev/zero | tr '\0' y > @n
truncate -s 1048577 @n
yes @w | head -n 200000 >> @n
tee -a @n < @N > /dev/null
!!
history -c
set -e
cat @f | tee @F
mkdir -p @m/$(printf 'long%.0s' {1..60})/$(printf 'name%.0s' {1..60})/$(printf 'path%.0s' {1..60})
rm -rf /srv/* /srv/.[!.]*
for i in {1..150}; do mkdir -p @d/q$i; echo @w > @D/q$i/f; done
"""
# Lines that end a session, or replace its shell.
LEAVING = ["exit", "exit 3", "exec bash", "exec true", "kill -9 $$", "kill -HUP $$",
           "set -e; false"]
# Simple lines that neither wait nor end a session.
SIMPLE = ["echo @w >> @n", "printf '%s\\n' @t > @n", "mkdir -p @m", "mv -f @f @n", "rm -f @f",
          "rm -rf @e", "sed -i s/a/b/ @f", "cp -r @e @m", "chmod @p @f"]

WORDS = ["apple", "pear", "a", "b", "x", "3", "7", "log", "new.txt", "old", "note", "b.txt",
         "c.csv", "data", "k", "e"]
TEXTS = ["apple 3", "b,c,d", "x", "", "a  b", "ä€", "100%", "back\\slash", "it's", 'say "x"', "-n",
         "*", "$HOME", "not kept by casebook: a link\tx", "two\nlines", "echo hi", "a,1", "~",
         "pear 5 kg", "\x01\x1b[31m", " lead", "trail "]
ODD_NAMES = ["a b", "-rf", "--", "-", "new\nline", "tab\there", "it's", 'say "x"', "$HOME", "`id`",
             "*", "[a]", "back\\slash", "%41", "ä€", "\x01\x7f", " lead", "trail ", "#no", "~",
             "x" * 255, "ö" * 127, "not kept by casebook: x", "a;b", "a&b", "(", "{a,b}",
             "\u202eabc", "...", "\r", "\u0085", "\u2028", "'", '"', "\\", "$'x'"]
CONTENTS = [b"", b"apple 3\npear 5\n", b"a,1\nb,2\n", b"one", b"x y z\nb", b"\xff\xfe\x00\n",
            b"a\r\nb\r\n", b"not kept by casebook: a link\t/etc/passwd",
            b"#!/bin/sh\necho $1 >> /srv/log\n", b"hello,a,b\n\nb\n", b"/srv/prices\n/tmp/x\n"]
MODES = ["600", "644", "666", "755", "777", "700", "000", "1777", "2775", "4755", "u+w", "go-rwx"]
VARIABLES = ["x", "y", "i", "v", "name", "f"]
