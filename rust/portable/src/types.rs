//! MIR's types as C's: names, declarations, and the sizes that offsets in bytes rely on.
use crate::header::{Field, Header};
use crate::mir::{Shape, Ty};
use crate::names::Names;
use crate::Refused;
use std::collections::{BTreeMap, BTreeSet};

type Made<T> = Result<T, Refused>;

pub struct Types<'a> {
    pub shapes: &'a BTreeMap<String, Shape>,
    pub header: &'a Header,
    pub names: &'a Names,
    /// The C names that the header gives to declared types, by symbol.
    given: BTreeMap<String, String>,
    /// The types that a pointer leads to, by C name.
    pointed: BTreeMap<String, Ty>,
}

pub fn up(end: u64, align: u64) -> u64 {
    end.div_ceil(align) * align
}

impl<'a> Types<'a> {
    pub fn new(shapes: &'a BTreeMap<String, Shape>, header: &'a Header, names: &'a Names) -> Self {
        Types { shapes, header, names, given: BTreeMap::new(), pointed: BTreeMap::new() }
    }

    fn shape(&self, ty: &Ty) -> Option<&'a Shape> {
        match ty {
            Ty::Named(symbol) => self.shapes.get(symbol),
            _ => None,
        }
    }

    pub fn variants(&self, ty: &Ty) -> Option<&'a [Vec<Ty>]> {
        match self.shape(ty) {
            Some(Shape::Variants(kinds)) => Some(kinds),
            _ => None,
        }
    }

    pub fn fields(&self, ty: &Ty) -> Made<Vec<Ty>> {
        match (ty, self.shape(ty)) {
            (Ty::Slice { mutable, of }, _) => Ok(vec![Ty::Ref { mutable: *mutable, to: of.clone() }, Ty::Int(64)]),
            (_, Some(Shape::Fields(fields))) => Ok(fields.clone()),
            _ => Err(Refused::new("no struct", ty)),
        }
    }

    pub fn field_names(&self, ty: &Ty) -> Made<Vec<String>> {
        let symbol = match ty {
            Ty::Slice { .. } => return Ok(vec!["at".to_string(), "count".to_string()]),
            Ty::Named(symbol) => symbol,
            _ => return Err(Refused::new("no struct", ty)),
        };
        match self.given.get(symbol).and_then(|name| self.header.structs.get(name)) {
            Some(fields) => Ok(fields.iter().map(|field| field.name.clone()).collect()),
            None => Ok(self.names.fields(symbol, self.fields(ty)?.len())),
        }
    }

    /// Sees that a type of the header is the MIR's, field by field, and names the MIR's by it.
    pub fn meet(&mut self, kind: &str, count: Option<u64>, ty: &Ty) -> Made<()> {
        let differs = || Refused::new("the header's type is not the MIR's", (kind.to_string(), count, ty.clone()));
        let one = match (count, ty) {
            (None, _) => ty,
            (Some(n), Ty::Array(of, m)) if n == *m => of,
            _ => return Err(differs()),
        };
        let Some(fields) = self.header.structs.get(kind) else {
            let same = matches!(
                (kind, one),
                ("uint64_t" | "int64_t", Ty::Int(64)) | ("uint8_t", Ty::Int(8)) | ("bool", Ty::Bool) | ("void", Ty::Unit)
            );
            return if same { Ok(()) } else { Err(differs()) };
        };
        let Ty::Named(symbol) = one else { return Err(differs()) };
        let inner = self.fields(one)?;
        let name = self.given.entry(symbol.clone()).or_insert_with(|| kind.to_string());
        if name != kind || inner.len() != fields.len() {
            return Err(differs());
        }
        for (Field { kind, count, .. }, ty) in fields.iter().zip(&inner) {
            self.meet(kind, *count, ty)?;
        }
        Ok(())
    }

    /// The C type; of an array that of its elements, and of a reference to an array a pointer to the first.
    pub fn c(&mut self, ty: &Ty) -> Made<String> {
        Ok(match ty {
            Ty::Int(bits) => format!("uint{bits}_t"),
            Ty::Bool => "bool".to_string(),
            Ty::Unit => "void".to_string(),
            Ty::Ptr => "void *".to_string(),
            Ty::Ref { mutable, to } => format!("{}{} *", if *mutable { "" } else { "const " }, self.c(to)?),
            Ty::Array(of, _) if matches!(**of, Ty::Array(..)) => return Err(Refused::new("array of arrays", ty)),
            Ty::Array(of, _) => self.c(of)?,
            Ty::Slice { mutable, of } => {
                let inner = match **of {
                    Ty::Int(bits) => format!("u{bits}"),
                    _ => self.c(of)?,
                };
                format!("{}slice_{inner}", if *mutable { "mut_" } else { "" })
            }
            Ty::Named(symbol) if self.shapes.contains_key(symbol) => {
                self.given.get(symbol).cloned().unwrap_or_else(|| symbol.replace("::", "_"))
            }
            Ty::Named(_) => return Err(Refused::new("type that is not declared", ty)),
        })
    }

    pub fn declare(&mut self, ty: &Ty, name: &str) -> Made<String> {
        let kind = self.c(ty)?;
        let gap = if kind.ends_with('*') { "" } else { " " };
        Ok(match ty {
            Ty::Array(_, count) => format!("{kind}{gap}{name}[{count}]"),
            _ => format!("{kind}{gap}{name}"),
        })
    }

    /// Notes that a pointer leads to this type, so that its size is asserted. What has no one size on every machine is no type that offsets are counted in.
    pub fn point(&mut self, ty: &Ty, stepped: bool) -> Made<()> {
        let one = if let Ty::Array(of, _) = ty { of } else { ty };
        let name = self.c(one)?;
        match self.layout(one) {
            _ if self.is_empty(one) => {}
            Ok(_) => {
                self.pointed.insert(name, one.clone());
            }
            Err(_) if stepped => return Err(Refused::new("offsets counted in", ty)),
            Err(_) => {}
        }
        Ok(())
    }

    /// Whether nothing is in it: C has no such struct, and one byte stands for it.
    fn is_empty(&self, ty: &Ty) -> bool {
        match (ty, self.shape(ty)) {
            (Ty::Unit, _) => true,
            (_, Some(Shape::Fields(fields))) => fields.iter().all(|field| self.is_empty(field)),
            _ => false,
        }
    }

    /// How many bytes a value has in all, whatever lies between them, with pointers of eight.
    pub fn bytes(&self, ty: &Ty) -> u64 {
        let sum = |fields: &[Ty]| fields.iter().map(|field| self.bytes(field)).sum();
        match (ty, self.shape(ty)) {
            (Ty::Bool, _) => 1,
            (Ty::Int(bits), _) => u64::from(bits / 8),
            (Ty::Ptr | Ty::Ref { .. }, _) => 8,
            (Ty::Slice { .. }, _) => 16,
            (Ty::Array(of, count), _) => self.bytes(of) * count,
            (_, Some(Shape::Fields(fields))) => sum(fields),
            (_, Some(Shape::Variants(kinds))) => 8 + kinds.iter().map(|fields| sum(fields)).max().unwrap_or(0),
            (Ty::Unit | Ty::Named(_), _) => 0,
        }
    }

    /// Size and alignment of the types that a pointer may step over, as `Prog/Memory.antt` has them.
    pub fn layout(&self, ty: &Ty) -> Made<(u64, u64)> {
        match ty {
            Ty::Bool => Ok((1, 1)),
            Ty::Int(bits) => Ok((u64::from(bits / 8), u64::from(bits / 8))),
            Ty::Array(of, count) => self.layout(of).map(|(size, align)| (size * count, align)),
            Ty::Named(_) => {
                let (mut end, mut most) = (0, 1);
                for field in self.fields(ty)?.iter().filter(|field| **field != Ty::Unit) {
                    if self.is_empty(field) {
                        return Err(Refused::new("size of", ty));
                    }
                    let (size, align) = self.layout(field)?;
                    end = up(end, align) + size;
                    most = most.max(align);
                }
                Ok((up(end, most), most))
            }
            Ty::Unit | Ty::Ptr | Ty::Ref { .. } | Ty::Slice { .. } => Err(Refused::new("size of", ty)),
        }
    }

    /// The struct of a slice or a declared type, behind those that it holds or leads to.
    pub fn define(&mut self, ty: &Ty, done: &mut BTreeSet<String>, out: &mut Vec<String>) -> Made<()> {
        let one = match ty {
            Ty::Array(of, _) => of,
            Ty::Ref { to, .. } => return self.define(to, done, out),
            _ => ty,
        };
        let name = self.c(ty)?;
        if !matches!(one, Ty::Named(_) | Ty::Slice { .. })
            || self.header.structs.contains_key(&name)
            || !done.insert(name.clone())
        {
            return Ok(());
        }
        if let Ty::Slice { mutable, of } = one {
            self.define(of, done, out)?;
            let at = self.c(&Ty::Ref { mutable: *mutable, to: of.clone() })?;
            out.push(format!("typedef struct {{\n    {at}at;\n    uint64_t count;\n}} {name};\n"));
            return Ok(());
        }
        let body = match self.variants(one) {
            Some(kinds) => {
                kinds.iter().flatten().try_for_each(|field| self.define(field, done, out))?;
                self.union(kinds)?
            }
            None if self.is_empty(one) => "    unsigned char none;\n".to_string(),
            None => {
                let mut body = String::new();
                for (field, label) in
                    self.fields(one)?.iter().zip(self.field_names(one)?).filter(|(field, _)| **field != Ty::Unit)
                {
                    self.define(field, done, out)?;
                    body += &format!("    {};\n", self.declare(field, &label)?);
                }
                body
            }
        };
        out.push(format!("typedef struct {{\n{body}}} {name};\n"));
        Ok(())
    }

    fn union(&mut self, kinds: &[Vec<Ty>]) -> Made<String> {
        let mut inner = String::new();
        for (k, fields) in kinds.iter().enumerate() {
            let mut parts = String::new();
            for (i, field) in fields.iter().enumerate().filter(|(_, field)| **field != Ty::Unit) {
                parts += &format!(" {};", self.declare(field, &format!("f{}", i + 1))?);
            }
            if !parts.is_empty() {
                inner += &format!("        struct {{{parts} }} k{k};\n");
            }
        }
        Ok(if inner.is_empty() {
            "    uint8_t tag;\n".to_string()
        } else {
            // As wide as the words behind it, so that no bytes lie between: a copy would take them along, and a processor waits where it reads bytes together
            // that were written one by one. With gcc a join took up to three times as long.
            format!("    uint64_t tag;\n    union {{\n{inner}    }} of;\n")
        })
    }

    pub fn size_assertions(&self) -> Made<Vec<String>> {
        let line = |(name, ty): (&String, &Ty)| {
            let (size, _) = self.layout(ty)?;
            Ok(format!("typedef char size_of_{name}[sizeof({name}) == {size} ? 1 : -1];"))
        };
        self.pointed.iter().map(line).collect()
    }
}
