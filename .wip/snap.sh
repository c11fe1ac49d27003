# snap.sh NAME=DIR ..: the work tree of each helper's clone, committed or not, as branch wip-NAME of /tmp/w/chain; then save.sh. In a loop: while sleep 600; do bash snap.sh ..; done
for pair in "$@"; do
    name=${pair%%=*} dir=${pair#*=}
    cd "$dir" || continue
    export GIT_INDEX_FILE=/tmp/w/snap.idx
    rm -f "$GIT_INDEX_FILE"
    git read-tree HEAD && git add -A . >/dev/null 2>&1
    c=$(git commit-tree "$(git write-tree)" -p HEAD -m "wip $name $(date -u +%H:%M)")
    unset GIT_INDEX_FILE
    git push -q -f /tmp/w/chain "$c:refs/heads/wip-$name"
done
bash /work/main/.wip/save.sh >/dev/null
