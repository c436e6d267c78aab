# Finds the customer's Rust and copies it to target/customer, where the Cargo files look for it: a link would not do, since
# `rt ci` refuses links, in target/ too. To be sourced, in a folder of the repository. LOHANDEMA_ORACLE names the folder that has
# ferreus_bbfmm and shims, with the five files of the Rust in docs/ beside it; else it is looked for beside the repository, as
# ../shared/oracle. Where there is none, or no cargo, the script that sources this says so and ends, with success; where
# LOHANDEMA_ORACLE names a folder that has none, it fails.
oracle=${LOHANDEMA_ORACLE:-../../shared/oracle}
if [ -n "${LOHANDEMA_ORACLE:-}" ] && [ ! -d "$oracle/ferreus_bbfmm" ]; then
    echo "LOHANDEMA_ORACLE names $oracle, which has no folder ferreus_bbfmm: name the one that has it, or unset it" >&2
    exit 1
fi
if [ ! -d "$oracle/ferreus_bbfmm" ]; then
    echo "the customer's Rust is not at hand (LOHANDEMA_ORACLE names its folder): nothing was run"
    exit 0
fi
if ! command -v cargo >/dev/null; then
    echo "there is no cargo on the PATH: nothing was run"
    exit 0
fi
# files that are as they were keep their times, so that cargo builds nothing again
customer=../target/customer
rm -rf "$customer.new"
mkdir -p "$customer.new/oracle"
cp -R --preserve=timestamps --no-preserve=mode "$oracle"/{ferreus_bbfmm,shims} "$customer.new/oracle/"
[ ! -f "$oracle/Cargo.toml" ] || cp --preserve=timestamps --no-preserve=mode "$oracle/Cargo.toml" "$customer.new/oracle/"
if [ -d "$oracle/../docs/src/ferreus_bbfmm" ]; then
    mkdir -p "$customer.new/docs/src"
    cp -R --preserve=timestamps --no-preserve=mode "$oracle/../docs/src/ferreus_bbfmm" "$customer.new/docs/src/"
fi
if diff -rq "$customer.new" "$customer" >/dev/null 2>&1; then
    rm -rf "$customer.new"
else
    rm -rf "$customer"
    mv "$customer.new" "$customer"
fi
export CARGO_TARGET_DIR=$PWD/../target/cargo
