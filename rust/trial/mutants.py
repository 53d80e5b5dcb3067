#!/usr/bin/env python3
"""mutants.py [NAME..]: shows that wrong models are found.

Each mutant is one edit of the model's source, made in a temporary copy of this folder, where `compare` must then find a
disagreement between the original and the model, or a test of the refusals must fail. Run it in rust/. NLL_ORIGINAL names the original's folder, as in a build."""
import os, shutil, subprocess, sys, tempfile

# name: (file of model/src, text, what stands there instead)
MUTANTS = {
    'Mut borrow read before written': ('access.rs', 'vec![(Access::Write, dest.clone()), (Access::MutBorrow, source.clone())]', 'vec![(Access::MutBorrow, source.clone()), (Access::Write, dest.clone())]'),
    'a move is kind 4': ('access.rs', 'MOVE: u8 = 3', 'MOVE: u8 = 4'),
    'StorageDead by intersection': ('access.rs', 'Access::MutBorrow | Access::Move => intersects(job, path, loan),\n            Access::Write | Access::StorageDead =>', 'Access::MutBorrow | Access::Move | Access::StorageDead => intersects(job, path, loan),\n            Access::Write =>'),
    'Drop by freezing': ('access.rs', 'Access::MutBorrow | Access::Move => intersects(job, path, loan),\n            Access::Write | Access::StorageDead =>', 'Access::MutBorrow => intersects(job, path, loan),\n            Access::Write | Access::Move | Access::StorageDead =>'),
    'a Mut borrow\'s source by freezing': ('access.rs', 'Access::MutBorrow | Access::Move => intersects(job, path, loan),\n            Access::Write | Access::StorageDead =>', 'Access::Move => intersects(job, path, loan),\n            Access::Write | Access::MutBorrow | Access::StorageDead =>'),
    'a write by intersection': ('access.rs', 'Access::MutBorrow | Access::Move => intersects(job, path, loan),\n            Access::Write | Access::StorageDead =>', 'Access::MutBorrow | Access::Move | Access::Write => intersects(job, path, loan),\n            Access::StorageDead =>'),
    'reads conflict with Shared': ('access.rs', 'loan.kind == BorrowKind::Mut && ', ''),
    'no intersection by the loan\'s prefixes': ('access.rs', 'loan.path.is_prefix_of(path) || job.supporting_prefixes(loan.path).contains(path)', 'loan.path.is_prefix_of(path)'),
    'no intersection by the path\'s prefixes': ('access.rs', 'loan.path.is_prefix_of(path) || job.supporting_prefixes(loan.path).contains(path)', 'job.supporting_prefixes(loan.path).contains(path)'),
    'no freezing below the loan': ('access.rs', 'loan.path.is_prefix_of(path) || job.frozen_prefixes(loan.path).contains(path)', 'job.frozen_prefixes(loan.path).contains(path)'),
    'loans conflict out of scope': ('access.rs', 'loan.in_scope[p] && access', 'access'),
    'Assign overwrites nothing': ('loans.rs', ' | Action::Assign(dest, _)) => dest.is_prefix_of(path)', ') => dest.is_prefix_of(path)'),
    'Borrow overwrites nothing': ('loans.rs', 'Action::Borrow(dest, ..) | Action::Init', 'Action::Init'),
    'overwriting a longer path': ('loans.rs', 'dest.is_prefix_of(path)', '(dest.is_prefix_of(path) || path.is_prefix_of(dest))'),
    'a borrow\'s own action kills no loan': ('loans.rs', 'if overwrites(graph.actions[p], path) {', 'if p != borrow && overwrites(graph.actions[p], path) {'),
    'scope ignores the region': ('loans.rs', 'if region[next] && !in_scope[next]', 'if !in_scope[next]'),
    'a dropped Ref is live': ('liveness.rs', 'Ty::Unit | Ty::Ref(..) | Ty::Bound(_) => vec![],', 'Ty::Ref(..) => ty.regions(),\n        Ty::Unit | Ty::Bound(_) => vec![],'),
    'drops need nothing': ('regions.rs', 'let dropped = drop_regions(job, ty);', 'let dropped: Vec<RegionName> = vec![];\n        let _ = drop_regions;'),
    'drops need all': ('regions.rs', 'let dropped = drop_regions(job, ty);', 'let dropped = ty.regions();\n        let _ = drop_regions;'),
    'region arguments never dangle': ('liveness.rs', '(Arg::Region(_), true) => vec![],', '(Arg::Region(region), true) => vec![region.name()],'),
    'dangling type arguments are not looked into': ('liveness.rs', '(Arg::Ty(ty), true) => drop_regions(job, ty),', '(Arg::Ty(_), true) => vec![],'),
    'a definition leaves the drop': ('liveness.rs', 'after(&live.dropped, &graph.successors[p]) & !effects[p].defined', 'after(&live.dropped, &graph.successors[p])'),
    'a use is removed by the definition': ('liveness.rs', 'after(&live.used, &graph.successors[p]) & !effects[p].defined | effects[p].used', '(after(&live.used, &graph.successors[p]) | effects[p].used) & !effects[p].defined'),
    'a stepped Borrow defines nothing': ('liveness.rs', 'Effect { defined: only(dest.base), used: only(source.base), ..nothing }', 'Effect { defined: if dest.is_plain() { only(dest.base) } else { 0 }, used: only(source.base), ..nothing }'),
    'a stepped Borrow uses its base': ('liveness.rs', 'Effect { defined: only(dest.base), used: only(source.base), ..nothing }', 'written(dest, only(source.base))'),
    'a stepped destination uses nothing': ('liveness.rs', 'used: sources | only(dest.base)', 'used: sources'),
    'Init\'s sources are not used': ('liveness.rs', 'written(dest, bases(sources))', 'written(dest, bases(sources) & 0)'),
    'supporting prefixes are the frozen ones': ('paths.rs', 'matches!(ty, Ty::Ref(BorrowKind::Shared, _, _))', 'matches!(ty, Ty::Ref(..))'),
    'frozen prefixes are the supporting ones': ('paths.rs', '|ty| matches!(ty, Ty::Ref(..))', '|ty| matches!(ty, Ty::Ref(BorrowKind::Shared, _, _))'),
    'Contra is not inverted': ('constraints.rs', 'Variance::Contra => param.inverted()', 'Variance::Contra => param'),
    'In passes the parameter\'s variance': ('constraints.rs', 'Variance::Contra => param.inverted(),\n            Variance::In => Variance::In,', 'Variance::Contra => param.inverted(),\n            Variance::In => param,'),
    'a Mut referent keeps the variance': ('constraints.rs', 'BorrowKind::Mut => Variance::In', 'BorrowKind::Mut => self'),
    'a Shared referent is In': ('constraints.rs', 'BorrowKind::Shared => self', 'BorrowKind::Shared => Variance::In'),
    'a Ref\'s region is not inverted': ('constraints.rs', 'self.regions(variance.inverted(), *region_a, *region_b)', 'self.regions(variance, *region_a, *region_b)'),
    'a region argument is inverted again': ('constraints.rs', '(Arg::Region(a), Arg::Region(b)) => self.regions(variance, *a, *b)', '(Arg::Region(a), Arg::Region(b)) => self.regions(variance.inverted(), *a, *b)'),
    'In makes one outlive the other': ('constraints.rs', '                self.outlives(a, b);\n                self.outlives(b, a);', '                self.outlives(a, b);'),
    'Assign under Contra': ('constraints.rs', '.types(Variance::Co, &job.path_type(source)', '.types(Variance::Contra, &job.path_type(source)'),
    'Borrow under Co': ('constraints.rs', '.types(Variance::Contra, &job.path_type(dest)', '.types(Variance::Co, &job.path_type(dest)'),
    'Assign at its own point': ('constraints.rs', 'Relation { job, point: next, found }.types(Variance::Co,', 'Relation { job, point: p, found }.types(Variance::Co,'),
    'Constraint at the next point': ('constraints.rs', 'sub: *sub, point: p }', 'sub: *sub, point: next }'),
    'a borrow\'s source asks nothing': ('constraints.rs', 'for sup in supporting_regions(job, source) {', 'for sup in supporting_regions(job, source).into_iter().take(0) {'),
    'only the last Ref of a borrow\'s source': ('constraints.rs', 'for sup in supporting_regions(job, source) {', 'for sup in supporting_regions(job, source).into_iter().take(1) {'),
    'outlives is not transitive': ('regions.rs', 'pending.extend(&job.outlives[next]);', 'if next == region {\n                pending.extend(&job.outlives[next]);\n            }'),
    'a declared region holds unreached points': ('regions.rs', 'for p in graph.walked_points() {\n            sets[region][p] = true;', 'for p in 0..graph.actions.len() {\n            sets[region][p] = true;'),
    'variables are live at unreached points': ('regions.rs', 'for p in graph.walked_points() {\n            if live.is_used', 'for p in 0..graph.actions.len() {\n            if live.is_used'),
    'the inner region is copied whole': ('regions.rs', 'for p in passed(graph, &sets[constraint.sub], constraint.point) {', 'let _ = passed(graph, &sets[constraint.sub], constraint.point);\n            for p in (0..graph.points).filter(|&p| sets[constraint.sub][p]).collect::<Vec<_>>() {'),
    'the walk leaves out its first point': ('regions.rs', 'found.push(p);\n            ends', 'if p != start {\n                found.push(p);\n            }\n            ends'),
    'no declared ends at a leaf': ('regions.rs', 'if ends {', 'if ends && false {'),
    'only the ends that the inner region holds': ('regions.rs', '.map(|region| graph.declared_end(region)));', '.map(|region| graph.declared_end(region)).filter(|&p| inner[p]));'),
    'one round': ('regions.rs', 'while changed {\n        changed = false;\n        for constraint', 'if changed {\n        changed = false;\n        for constraint'),
    'nothing is grown': ('regions.rs', 'sets[region] != seeds[region]', 'sets[region] != seeds[region] && false'),
    'the last of equal field numbers': ('types.rs', '.fields.iter().find(', '.fields.iter().rev().find('),
    'bound indices from the front': ('types.rs', '&of[of.len() - 1 - index]', '&of[index]'),
    'kinds exchanged': ('decode.rs', '&[BorrowKind::Mut, BorrowKind::Shared]', '&[BorrowKind::Shared, BorrowKind::Mut]'),
    'variances exchanged': ('decode.rs', '[Variance::Co, Variance::Contra, Variance::In]', '[Variance::Contra, Variance::Co, Variance::In]'),
    'sup and sub exchanged': ('decode.rs', 'Constraint { sup: self.number()?, sub: self.number()? }', 'Constraint { sub: self.number()?, sup: self.number()? }'),
    'a grown byte left as it was': ('output.rs', 'bytes[2 * answer.points + region] = u8::from(grown);', 'bytes[2 * answer.points + region] |= u8::from(grown);'),
    'unused bits left as they were': ('output.rs', 'row.fill(0);', 'for (p, _) in set.iter().enumerate() {\n            row[p / 32] &= !(1 << (p % 32));\n        }'),
    'a row too few words': ('output.rs', 'let words_per_region = answer.points.div_ceil(32);', 'let words_per_region = (answer.points / 32).max(1);'),
    'an exact fit is too short': ('output.rs', 'bytes.len() < bytes_needed', 'bytes.len() <= bytes_needed'),
    # refusals
    'length 16,384 is refused': ('decode.rs', 'MAX_LENGTH: usize = 16_384', 'MAX_LENGTH: usize = 16_383'),
    'length 16,385 is taken': ('decode.rs', 'MAX_LENGTH: usize = 16_384', 'MAX_LENGTH: usize = 16_385'),
    'bytes may follow the last block': ('decode.rs', 'if input.rest.is_empty() {', 'if input.rest.is_empty() || true {'),
    'a missing byte is 4': ('decode.rs', 'self.rest.split_first().ok_or(3)', 'self.rest.split_first().ok_or(4)'),
    'a 33rd node by its tag': ('decode.rs', 'if *nodes == MAX_NODES {', 'if *nodes == MAX_NODES && tag <= 3 {'),
    'a 33rd node is taken': ('decode.rs', 'if *nodes == MAX_NODES {', 'if *nodes > MAX_NODES {'),
    'no block is taken': ('decode.rs', 'self.count(1, most::BLOCKS)', 'self.count(0, most::BLOCKS)'),
    '65 actions are taken': ('decode.rs', 'ACTIONS: u8 = 64', 'ACTIONS: u8 = 65'),
    '7 steps are taken': ('decode.rs', 'STEPS: u8 = 6', 'STEPS: u8 = 7'),
    '1,025 points are taken': ('decode.rs', 'job.points() > MAX_POINTS', 'job.points() > MAX_POINTS + 1'),
    'declared ends are no points': ('syntax.rs', 'self.actions().count() + self.blocks.len() + self.declared()', 'self.actions().count() + self.blocks.len()'),
    '129 borrows are taken': ('decode.rs', 'MAX_BORROWS: usize = 128', 'MAX_BORROWS: usize = 129'),
    'more declared than regions': ('check.rs', 'job.declared() <= job.regions', 'job.declared() <= job.regions + 1'),
    'any region is outlived': ('check.rs', 'all(|&region| region < job.declared())', 'all(|&region| region < job.regions)'),
    'field 0 is taken': ('check.rs', 'f.number != 0 && ', ''),
    'any successor': ('check.rs', 'all(|&block| block < job.blocks.len())', 'all(|&block| block <= job.blocks.len())'),
    'StorageDead of any variable': ('check.rs', 'regions_named && dead_named', 'regions_named'),
    'any argument count': ('check.rs', 'args.len() == expected.len()\n                && ', ''),
    'any argument kind': ('check.rs', 'kind == Kind::Region && region_fits', 'region_fits'),
    'a bound of any kind': ('check.rs', 'index < params.len() && bound(params, index).kind == kind', 'index < params.len() && (bound(params, index).kind == kind || true)'),
    'bounds of the front': ('check.rs', 'bound(params, index).kind', 'params[index].kind'),
    'the last step of any size': ('check.rs', 'Some(next) if next.nodes() <= MAX_NODES => ty = next', 'Some(next) if ty.nodes() <= MAX_NODES => ty = next'),
    'Ref kinds do not count': ('types.rs', 'kind == other_kind && ', ''),
    'struct numbers do not count': ('types.rs', 'name == other_name && args', 'args'),
    'arguments have no shape': ('types.rs', ' && args.iter().zip(other_args).all(|(a, b)| a.same_shape(b))', ''),
    '7 before 6': ('check.rs', 'if !numbers_name_something(job) {\n        return Err(6);\n    }\n    if !types_fit(job) {\n        return Err(7);\n    }', 'if job.structs.iter().any(|s| s.params.is_empty() && !s.fields.is_empty() && matches!(s.fields[0].ty, Ty::Bound(_))) || job.variables.iter().any(|v| matches!(v, Ty::Bound(_))) {\n        return Err(7);\n    }\n    if !numbers_name_something(job) {\n        return Err(6);\n    }\n    if !types_fit(job) {\n        return Err(7);\n    }'),
    '10 before it is measured': ('output.rs', 'let job = match crate::accept(record) {', 'if words.is_empty() {\n        return 10;\n    }\n    let job = match crate::accept(record) {'),
}


# What must find a mutant, the shortest first: a comparison, or the tests of the refusals.
RUNS = [
    ['target/release/compare', 'few', 'original', 'model', '2'],
    ['cargo', 'test', '-q', '--release', '-p', 'generate', '--lib'],
    ['target/release/compare', 'few', 'original', 'model', '3'],
    ['target/release/compare', 'original', 'model', '10000', '1000'],
]


def build_and_run(folder):
    """Whether some run fails; none if the mutant does not build."""
    run = lambda command: subprocess.run(command, cwd=folder, capture_output=True, text=True)
    build = run(['cargo', 'build', '--release', '-q', '-p', 'compare'])
    if build.returncode != 0:
        print(build.stderr)
        return None
    return any(run(command).returncode != 0 for command in RUNS)


def main():
    os.environ.setdefault('NLL_ORIGINAL', os.path.abspath('../../shared/docs/src'))
    os.environ['CARGO_PROFILE_RELEASE_INCREMENTAL'] = 'true'
    os.environ['CARGO_PROFILE_RELEASE_OPT_LEVEL'] = '1'
    wanted = sys.argv[1:] or list(MUTANTS)
    missed = []
    with tempfile.TemporaryDirectory() as top:
        folder = f'{top}/rust'
        shutil.copytree('.', folder, ignore=shutil.ignore_patterns('target'))
        assert build_and_run(folder) is False, 'a run fails on the model itself'
        for name in wanted:
            file, text, instead = MUTANTS[name]
            place = f'{folder}/model/src/{file}'
            source = open(place, encoding='utf-8').read()
            assert text in source, f'{name}: its place is not in {file}'
            with open(place, 'w', encoding='utf-8') as out:
                out.write(source.replace(text, instead))
            found = build_and_run(folder)
            print(f'{"found" if found else "MISSED"}: {name}', flush=True)
            if not found:
                missed.append(name)
            with open(place, 'w', encoding='utf-8') as out:
                out.write(source)
    print(f'{len(wanted)} mutants, {len(missed)} missed')
    sys.exit(1 if missed else 0)


if __name__ == '__main__':
    main()
