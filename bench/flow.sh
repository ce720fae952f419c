#!/bin/bash
# Seconds for the plans of a program that is one body of 256 KiB, 512 KiB and 1 MiB of source: flat, with many locals; one
# `if` in another to the limit of brackets, repeated; `else if`s, of which 1 MiB holds 55,000; 97 loops one in another,
# repeated; a chain of `&&`, of which 1 MiB holds 200,000. The trees are built, not parsed, and their building isn't
# measured. It ends with 1 where a byte takes more than 1.3 times as long at one size as at another.
# Proves and builds a program in a folder of its own, which takes minutes. Run it at the top of the repository.
set -eu

here=$(pwd)
work=$(mktemp -d)
trap 'rm -rf "$work"' EXIT
mkdir -p "$work/crates/plan_bench/src"
"$here/.ci/edges" --below hv_flow_plan > "$work/crates.txt"
for name in $(cut -d: -f1 "$work/crates.txt"); do
    cp -r "$here/crates/$name" "$work/crates/"
    rm -rf "$work/crates/$name/out"
done
cp "$here/HANDLES" "$work/"
echo 'plan_bench: hv_tree hv_flow_plan' >> "$work/crates.txt"
cat > "$work/crates/plan_bench/src/main.rt" <<'END_OF_PROGRAM'
//! Times the plans of bodies of several forms and lengths.
#![tactic(auto)]

use hv_flow_plan::plans;
use hv_tree::{
    Block, Branch, Call, Conv, Expr, FunDecl, Name, Operator, Param, Place, PlaceExpr, Stmt, Tree,
    builders as build,
};
use std::alloc::{AllocError, Global};
use std::io;
use std::rt::Clock;
use std::time::Instant;

const AT: Place = Place { start: 0 };

#[derive(Clone, Copy)]
enum Form {
    /// `var x1: Int = a + 1 &x1 = x1 * b g(x1, &b)`, each with a local of its own.
    Flat,
    /// 98 times `if a { `.
    Ifs,
    /// ` else if a { f(b) }`
    Elses,
    /// 97 times `while a { `.
    Loops,
    /// ` && a`
    Chain,
}

// How many bytes of source a piece of the form has.
fn bytes(form: Form) -> u32 {
    match form {
        Form::Flat => 67,
        Form::Ifs => 891,
        Form::Elses => 19,
        Form::Loops => 1_173,
        Form::Chain => 5,
    }
}

fn word(form: Form) -> &'static str {
    match form {
        Form::Flat => "flat",
        Form::Ifs => "ifs",
        Form::Elses => "elses",
        Form::Loops => "loops",
        Form::Chain => "chain",
    }
}

fn name(alloc: Global, text: &str) -> Result<Name, AllocError> {
    build::name(alloc, String::from_str(alloc, text)?, AT)
}

fn place(alloc: Global, text: &str) -> Result<PlaceExpr, AllocError> {
    build::place_expr(alloc, name(alloc, text)?, Vec::new(alloc))
}

fn read(alloc: Global, text: &str) -> Result<Expr, AllocError> {
    build::expr(
        alloc,
        AT,
        build::expr_kind_path(alloc, place(alloc, text)?)?,
    )
}

fn param(alloc: Global, text: &str, conv: Conv) -> Result<Param, AllocError> {
    build::param(alloc, name(alloc, text)?, conv, build::ty_int(alloc, AT)?)
}

fn call(alloc: Global, callee: &str, value: &str, lent: &str) -> Result<Call, AllocError> {
    let mut args = Vec::new(alloc);
    args.push(build::arg_value(alloc, read(alloc, value)?)?)?;
    args.push(build::arg_ref(alloc, AT, place(alloc, lent)?)?)?;
    build::call(alloc, place(alloc, callee)?, AT, args)
}

fn print(alloc: Global) -> Result<Stmt, AllocError> {
    build::stmt(alloc, AT, build::stmt_kind_print(alloc, read(alloc, "b")?)?)
}

fn block_of(alloc: Global, stmt: Stmt) -> Result<Block, AllocError> {
    let mut stmts = Vec::new(alloc);
    stmts.push(stmt)?;
    build::block(alloc, stmts, AT)
}

fn product(alloc: Global, left: &str, right: &str) -> Result<Expr, AllocError> {
    let mut links = Vec::new(alloc);
    links.push((Operator::Mul, AT, read(alloc, right)?))?;
    build::expr(
        alloc,
        AT,
        build::expr_kind_chain(alloc, read(alloc, left)?, links)?,
    )
}

fn push_flat(alloc: Global, stmts: &mut Vec<Stmt>, number: u32) -> Result<(), AllocError> {
    let text = format!(in alloc; "x{number}")?;
    let local = text.as_str();
    let ty = build::ty_int(alloc, AT)?;
    let value = product(alloc, "a", "a")?;
    let kind = build::stmt_kind_var(alloc, name(alloc, local)?, ty, Some(value))?;
    stmts.push(build::stmt(alloc, AT, kind)?)?;
    let value = product(alloc, local, "b")?;
    let kind = build::stmt_kind_assign(alloc, place(alloc, local)?, value)?;
    stmts.push(build::stmt(alloc, AT, kind)?)?;
    let kind = build::stmt_kind_call(alloc, call(alloc, "g", local, "b")?)?;
    stmts.push(build::stmt(alloc, AT, kind)?)?;
    Ok(())
}

fn tested(alloc: Global, body: Block) -> Result<Stmt, AllocError> {
    let branch = build::branch(alloc, read(alloc, "a")?, body)?;
    let mut branches = Vec::new(alloc);
    branches.push(branch)?;
    build::stmt(alloc, AT, build::stmt_kind_if(alloc, branches, None)?)
}

fn looped(alloc: Global, body: Block) -> Result<Stmt, AllocError> {
    build::stmt(
        alloc,
        AT,
        build::stmt_kind_while(alloc, read(alloc, "a")?, body)?,
    )
}

fn push_ifs(alloc: Global, stmts: &mut Vec<Stmt>) -> Result<(), AllocError> {
    let mut stmt = print(alloc)?;
    for _ in 0..98u8 {
        stmt = tested(alloc, block_of(alloc, stmt)?)?;
    }
    stmts.push(stmt)?;
    Ok(())
}

fn push_loops(alloc: Global, stmts: &mut Vec<Stmt>) -> Result<(), AllocError> {
    let mut stmt = print(alloc)?;
    for _ in 0..97u8 {
        stmt = looped(alloc, block_of(alloc, stmt)?)?;
    }
    stmts.push(stmt)?;
    Ok(())
}

fn branch(alloc: Global) -> Result<Branch, AllocError> {
    build::branch(alloc, read(alloc, "a")?, block_of(alloc, print(alloc)?)?)
}

fn push_elses(alloc: Global, stmts: &mut Vec<Stmt>, count: u32) -> Result<(), AllocError> {
    let mut branches = Vec::new(alloc);
    for _ in 0..count {
        branches.push(branch(alloc)?)?;
    }
    stmts.push(build::stmt(alloc, AT, build::stmt_kind_if(alloc, branches, None)?)?)?;
    Ok(())
}

fn push_chain(alloc: Global, stmts: &mut Vec<Stmt>, count: u32) -> Result<(), AllocError> {
    let mut links = Vec::new(alloc);
    for _ in 0..count {
        links.push((Operator::And, AT, read(alloc, "a")?))?;
    }
    let kind = build::expr_kind_chain(alloc, read(alloc, "a")?, links)?;
    let value = build::expr(alloc, AT, kind)?;
    stmts.push(build::stmt(alloc, AT, build::stmt_kind_print(alloc, value)?)?)?;
    Ok(())
}

fn push_form(
    alloc: Global,
    stmts: &mut Vec<Stmt>,
    form: Form,
    count: u32,
) -> Result<(), AllocError> {
    match form {
        Form::Flat => {
            for number in 0..count {
                push_flat(alloc, stmts, number)?;
            }
            Ok(())
        }
        Form::Ifs => {
            for _ in 0..count {
                push_ifs(alloc, stmts)?;
            }
            Ok(())
        }
        Form::Loops => {
            for _ in 0..count {
                push_loops(alloc, stmts)?;
            }
            Ok(())
        }
        Form::Elses => push_elses(alloc, stmts, count),
        Form::Chain => push_chain(alloc, stmts, count),
    }
}

fn function(alloc: Global, text: &str, stmts: Vec<Stmt>) -> Result<FunDecl, AllocError> {
    let mut params = Vec::new(alloc);
    params.push(param(alloc, "a", Conv::Let)?)?;
    params.push(param(alloc, "b", Conv::Inout)?)?;
    let body = build::block(alloc, stmts, AT)?;
    build::fun_decl(alloc, name(alloc, text)?, params, None, body)
}

fn program(alloc: Global, form: Form, count: u32) -> Result<Tree, AllocError> {
    let mut stmts = Vec::new(alloc);
    push_form(alloc, &mut stmts, form, count)?;
    let mut decls = Vec::new(alloc);
    decls.push(build::decl_fun(alloc, function(alloc, "g", Vec::new(alloc))?)?)?;
    decls.push(build::decl_fun(alloc, function(alloc, "f", stmts)?)?)?;
    build::tree(alloc, decls)
}

fn measure(rt: &(impl Print + Clock), alloc: Global, form: Form, size: u32) -> io::Result<()> {
    let count = size.checked_div(bytes(form)).unwrap_or(0);
    let tree = program(alloc, form, count)?;
    let kind = word(form);
    for _ in 0..7u8 {
        let start = Instant::now(rt)?;
        let count = plans(alloc, &tree)?.len();
        let nanos = start.elapsed(rt)?.as_nanos();
        println!(rt; "{kind} {size} {nanos} {count}")?;
    }
    Ok(())
}

fn main(rt: HostRuntime) -> io::Result<()> {
    for form in [Form::Flat, Form::Ifs, Form::Elses, Form::Loops, Form::Chain] {
        for size in [262_144, 524_288, 1_048_576] {
            measure(&rt, rt.alloc(), form, size)?;
        }
    }
    Ok(())
}
END_OF_PROGRAM
cd "$work/crates/plan_bench"
# so that the C library keeps the memory of a round for the next; else the larger plan pays for new pages
export MALLOC_MMAP_THRESHOLD_=1073741824 MALLOC_TRIM_THRESHOLD_=1073741824
rt run > "$work/log"
awk '
    NF == 4 {
        key = $1 " " $2
        if (!(key in least) || $3 < least[key]) least[key] = $3
    }
    END {
        n = split("flat ifs elses loops chain", kinds, " ")
        for (k = 1; k <= n; k++) {
            low = 0; high = 0; line = sprintf("%-6s", kinds[k])
            for (i = 0; i < 3; i++) {
                t = least[kinds[k] " " 262144 * 2 ^ i]
                if (t == 0) { print kinds[k] " was not measured"; bad = 1; break }
                line = line sprintf(" %7.4f s", t / 1e9)
                a = t / 2 ^ i
                if (low == 0 || a < low) low = a
                if (a > high) high = a
            }
            if (t == 0) continue
            printf "%s   %.2f of linear\n", line, high / low
            if (high / low > 1.3) bad = 1
        }
        exit bad
    }
' "$work/log"
