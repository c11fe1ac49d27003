# Saves all branches of /tmp/w/chain into main's .wip: one bundle that stands alone (a thin one was lost once when main's hash changed), and patches of the chain.
set -e
cd /tmp/w/chain
git fetch -q origin


git bundle create -q /work/main/.wip/all.bundle.new --branches
git bundle verify -q /work/main/.wip/all.bundle.new && mv /work/main/.wip/all.bundle.new /work/main/.wip/all.bundle
ls -la /work/main/.wip/all.bundle
