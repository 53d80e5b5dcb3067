//! The record of a job: the inverse of `decode`, for generated jobs. Numbers that do not fit a byte are not encoded.

use crate::syntax::*;

/// The record, with its version and length; none if the length does not fit two bytes.
pub fn encode(job: &Job) -> Option<Vec<u8>> {
    with_length(&body(job))
}

/// A version byte and the length of `body` before it.
pub fn with_length(body: &[u8]) -> Option<Vec<u8>> {
    let length = u16::try_from(body.len()).ok()?;
    let mut record = vec![1];
    record.extend(length.to_be_bytes());
    record.extend(body);
    Some(record)
}

fn body(job: &Job) -> Vec<u8> {
    let mut out = Output { bytes: vec![] };
    for count in [job.structs.len(), job.regions, job.declared(), job.variables.len(), job.blocks.len()] {
        out.number(count);
    }
    job.structs.iter().for_each(|decl| out.struct_decl(decl));
    for outlived in &job.outlives {
        out.numbers(outlived);
    }
    job.variables.iter().for_each(|ty| out.ty(ty));
    for block in &job.blocks {
        out.numbers(&block.successors);
        out.number(block.actions.len());
        block.actions.iter().for_each(|action| out.action(action));
    }
    out.bytes
}

struct Output {
    bytes: Vec<u8>,
}

impl Output {
    fn number(&mut self, n: usize) {
        self.bytes.push(u8::try_from(n).expect("a number of a job fits a byte"));
    }

    fn numbers(&mut self, ns: &[usize]) {
        self.number(ns.len());
        ns.iter().for_each(|&n| self.number(n));
    }

    fn struct_decl(&mut self, decl: &StructDecl) {
        self.number(decl.params.len());
        for param in &decl.params {
            self.number(param.variance as usize);
            self.number(param.may_dangle as usize);
            self.number(param.kind as usize);
        }
        self.number(decl.fields.len());
        for field in &decl.fields {
            self.bytes.push(field.number);
            self.ty(&field.ty);
        }
    }

    fn ty(&mut self, ty: &Ty) {
        match ty {
            Ty::Unit => self.number(0),
            Ty::Ref(kind, region, referent) => {
                self.number(1);
                self.number(*kind as usize);
                self.region(*region);
                self.ty(referent);
            }
            Ty::Struct(name, args) => {
                self.number(2);
                self.number(*name);
                self.number(args.len());
                args.iter().for_each(|arg| self.arg(arg));
            }
            Ty::Bound(index) => {
                self.number(3);
                self.number(*index);
            }
        }
    }

    fn arg(&mut self, arg: &Arg) {
        match arg {
            Arg::Region(region) => {
                self.number(0);
                self.region(*region);
            }
            Arg::Ty(ty) => {
                self.number(1);
                self.ty(ty);
            }
        }
    }

    fn region(&mut self, region: Region) {
        match region {
            Region::Free(name) => {
                self.number(0);
                self.number(name);
            }
            Region::Bound(index) => {
                self.number(1);
                self.number(index);
            }
        }
    }

    fn path(&mut self, path: &Path) {
        self.number(path.steps.len());
        self.number(path.base);
        self.bytes.extend(&path.steps);
    }

    fn action(&mut self, action: &Action) {
        match action {
            Action::Noop => self.number(0),
            Action::Init(dest, sources) => {
                self.number(1);
                self.path(dest);
                self.number(sources.len());
                sources.iter().for_each(|source| self.path(source));
            }
            Action::Borrow(dest, region, kind, source) => {
                self.number(2);
                self.path(dest);
                self.number(*region);
                self.number(*kind as usize);
                self.path(source);
            }
            Action::Assign(dest, source) => {
                self.number(3);
                self.path(dest);
                self.path(source);
            }
            Action::Constraint { sup, sub } => {
                self.number(4);
                self.number(*sup);
                self.number(*sub);
            }
            Action::Use(path) => {
                self.number(5);
                self.path(path);
            }
            Action::Drop(path) => {
                self.number(6);
                self.path(path);
            }
            Action::StorageDead(variable) => {
                self.number(7);
                self.number(*variable);
            }
        }
    }
}
