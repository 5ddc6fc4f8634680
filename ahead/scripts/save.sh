set -e
cd /work/h && rm -rf bnd && git clone -q /work/main bnd && cd bnd
for x in p5:p5 p6:p6 s12:s12 s13:s13; do d=${x%%:*}; b=${x##*:}; [ -d ../$d ] && git fetch -q ../$d $b && git branch -f x-$b FETCH_HEAD; w=$(git -C ../$d for-each-ref --format='%(refname:short)' refs/heads | grep '^wip' || true); for k in $w; do git fetch -q ../$d $k && git branch -f x-$k FETCH_HEAD; done; done
git fetch -q ../m7 m7 && git branch -f x-m7 FETCH_HEAD
git bundle create -q ../ahead/work.bundle $(git for-each-ref --format='%(refname:short)' refs/heads | grep -v '^main$') --not main
ls -la ../ahead/work.bundle; git for-each-ref --format='%(refname:short) %(objectname:short) %(subject)' refs/heads
rm -rf /work/main/ahead.new && cp -r ../ahead /work/main/ahead.new && rm -rf /work/main/ahead && mv /work/main/ahead.new /work/main/ahead
