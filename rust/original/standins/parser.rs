// Stand-in for the parser: the text is a record of document 01 in hexadecimal, two digits a byte.
// It knows the layout of a record and none of its limits: those are refusals, which are not the original's.

use super::*;
use intern::block_name;

pub fn parse_Func(text: &str) -> Result<Func, ParseError> {
    let bytes = bytes_of(text)?;
    let mut reader = Reader { bytes: &bytes, next: 0 };
    reader.header()?;
    let func = reader.func()?;
    match bytes.get(reader.next) {
        Some(&byte) => Err(ParseError::ExtraToken { token: (2 * reader.next, byte, 2 * reader.next + 2) }),
        None => Ok(func),
    }
}

fn bytes_of(text: &str) -> Result<Vec<u8>, ParseError> {
    let digits: Option<Vec<u32>> = text.chars().map(|c| c.to_digit(16)).collect();
    match digits {
        Some(ref digits) if digits.len() % 2 == 0 => {
            Ok(digits.chunks(2).map(|pair| (pair[0] * 16 + pair[1]) as u8).collect())
        }
        _ => Err(ParseError::InvalidToken { location: 0 }),
    }
}

struct Reader<'a> {
    bytes: &'a [u8],
    next: usize,
}

type Parsed<T> = Result<T, ParseError>;

impl<'a> Reader<'a> {
    fn byte(&mut self) -> Parsed<u8> {
        let byte = match self.bytes.get(self.next) {
            Some(&byte) => byte,
            None => return Err(ParseError::UnrecognizedToken { token: None, expected: vec![] }),
        };
        self.next += 1;
        Ok(byte)
    }

    /// The byte that was just read says nothing.
    fn meaningless<T>(&self) -> Parsed<T> {
        Err(ParseError::InvalidToken { location: 2 * (self.next - 1) })
    }

    fn many<T, F: Fn(&mut Self) -> Parsed<T>>(&mut self, item: F) -> Parsed<Vec<T>> {
        let count = self.byte()?;
        self.exactly(count, item)
    }

    fn exactly<T, F: Fn(&mut Self) -> Parsed<T>>(&mut self, count: u8, item: F) -> Parsed<Vec<T>> {
        let mut all = vec![];
        for _ in 0..count {
            all.push(item(self)?);
        }
        Ok(all)
    }

    /// The version, and the number of bytes that follow.
    fn header(&mut self) -> Parsed<()> {
        if self.byte()? != 1 {
            return self.meaningless();
        }
        let high = self.byte()? as usize;
        let low = self.byte()? as usize;
        if high * 256 + low != self.bytes.len() - 3 {
            return self.meaningless();
        }
        Ok(())
    }

    fn func(&mut self) -> Parsed<Func> {
        let structs = self.byte()?;
        let _regions = self.byte()?;
        let declared = self.byte()?;
        let variables = self.byte()?;
        let blocks = self.byte()?;

        let mut func = Func {
            decls: vec![],
            structs: vec![],
            regions: vec![],
            data: BTreeMap::new(),
            assertions: vec![],
        };
        for number in 0..structs {
            func.structs.push(StructDecl {
                name: struct_name(number),
                parameters: self.many(Self::parameter)?,
                fields: self.many(Self::field)?,
            });
        }
        for number in 0..declared {
            func.regions.push(RegionDecl {
                name: region_name(number),
                outlives: self.many(|reader| reader.byte().map(region_name))?,
            });
        }
        for number in 0..variables {
            func.decls.push(VariableDecl { var: variable(number), ty: self.ty()? });
        }
        for number in 0..blocks {
            let data = BasicBlockData {
                name: basic_block(number),
                successors: self.many(|reader| reader.byte().map(basic_block))?,
                actions: self.many(Self::action)?,
            };
            func.data.insert(basic_block(number), data);
        }
        Ok(func)
    }

    fn parameter(&mut self) -> Parsed<StructParameter> {
        let variance = match self.byte()? {
            0 => Variance::Co,
            1 => Variance::Contra,
            2 => Variance::In,
            _ => return self.meaningless(),
        };
        let may_dangle = match self.byte()? {
            0 => false,
            1 => true,
            _ => return self.meaningless(),
        };
        let kind = match self.byte()? {
            0 => Kind::Region,
            1 => Kind::Type,
            _ => return self.meaningless(),
        };
        Ok(StructParameter { kind, variance, may_dangle })
    }

    fn field(&mut self) -> Parsed<FieldDecl> {
        Ok(FieldDecl { name: self.byte().map(field_name)?, ty: self.ty()? })
    }

    fn ty(&mut self) -> Parsed<Box<Ty>> {
        let ty = match self.byte()? {
            0 => Ty::Unit,
            1 => {
                let kind = self.borrow_kind()?;
                let region = self.region()?;
                Ty::Ref(region, kind, self.ty()?)
            }
            2 => Ty::Struct(self.byte().map(struct_name)?, self.many(Self::argument)?),
            3 => Ty::Bound(self.byte()? as usize),
            _ => return self.meaningless(),
        };
        Ok(Box::new(ty))
    }

    fn argument(&mut self) -> Parsed<TyParameter> {
        match self.byte()? {
            0 => self.region().map(TyParameter::Region),
            1 => self.ty().map(TyParameter::Ty),
            _ => self.meaningless(),
        }
    }

    fn region(&mut self) -> Parsed<Region> {
        match self.byte()? {
            0 => self.byte().map(|name| Region::Free(region_name(name))),
            1 => self.byte().map(|index| Region::Bound(index as usize)),
            _ => self.meaningless(),
        }
    }

    fn borrow_kind(&mut self) -> Parsed<BorrowKind> {
        match self.byte()? {
            0 => Ok(BorrowKind::Mut),
            1 => Ok(BorrowKind::Shared),
            _ => self.meaningless(),
        }
    }

    fn path(&mut self) -> Parsed<Box<Path>> {
        let steps = self.byte()?;
        let base = Path::Var(self.byte().map(variable)?);
        let fields = self.exactly(steps, |reader| reader.byte().map(field_name))?;
        Ok(Box::new(fields.into_iter().fold(base, |path, field| Path::Extension(Box::new(path), field))))
    }

    fn action(&mut self) -> Parsed<Action> {
        let kind = match self.byte()? {
            0 => ActionKind::Noop,
            1 => ActionKind::Init(self.path()?, self.many(Self::path)?),
            2 => {
                let dest = self.path()?;
                let region = self.byte().map(region_name)?;
                let kind = self.borrow_kind()?;
                ActionKind::Borrow(dest, region, kind, self.path()?)
            }
            3 => ActionKind::Assign(self.path()?, self.path()?),
            4 => ActionKind::Constraint(Box::new(Constraint::Outlives(OutlivesConstraint {
                sup: self.byte().map(region_name)?,
                sub: self.byte().map(region_name)?,
            }))),
            5 => ActionKind::Use(self.path()?),
            6 => ActionKind::Drop(self.path()?),
            7 => ActionKind::StorageDead(self.byte().map(variable)?),
            _ => return self.meaningless(),
        };
        Ok(Action { kind, should_have_error: None })
    }
}

fn struct_name(number: u8) -> StructName {
    StructName { name: intern::intern(&format!("S{}", number)) }
}

fn region_name(number: u8) -> RegionName {
    RegionName::from(&*format!("'{}", number))
}

fn variable(number: u8) -> Variable {
    Variable { name: intern::intern(&format!("v{}", number)) }
}

fn basic_block(number: u8) -> BasicBlock {
    BasicBlock { name: intern::intern(&block_name(number as usize)) }
}

fn field_name(number: u8) -> FieldName {
    match number {
        0 => FieldName::star(),
        _ => FieldName { name: intern::intern(&format!("f{}", number)) },
    }
}
