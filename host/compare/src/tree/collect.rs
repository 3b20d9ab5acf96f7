//! Collecting: Mapping, and PathsVisitor on RASTTopDownVisitor.
use super::*;
use std::collections::{HashMap, HashSet};

pub struct Mapping<'a> {
    pub prefix: Rc<Path<'a>>,
    provenance: HashMap<Text<'a>, HashSet<Rc<Path<'a>>>>,
    /// Names in the order of first collection.
    pub keys: Vec<Text<'a>>,
    /// Names and bases in the order of first collection.
    pub pairs: Vec<(Text<'a>, Rc<Path<'a>>)>,
}

/// The base of each name that is shortened, and by which operation.
pub struct Replacement<'a> {
    chosen: HashMap<Text<'a>, Rc<Path<'a>>>,
    pub operation: Operation,
}

impl<'a> Replacement<'a> {
    pub fn has(&self, name: Text<'a>, base: &Path<'a>) -> bool {
        self.chosen.get(&name).is_some_and(|chosen| **chosen == *base)
    }
}

/// Whether a path is ::dafny_runtime.
pub fn is_runtime(path: &Path) -> bool {
    matches!(path, Path::Member(base, Text(b"dafny_runtime")) if **base == Path::Global)
}

impl<'a> Mapping<'a> {
    pub fn new(prefix: &Rc<Path<'a>>) -> Mapping<'a> {
        Mapping { prefix: prefix.clone(), provenance: HashMap::new(), keys: Vec::new(), pairs: Vec::new() }
    }

    /// What a module collects under its prefix.
    pub fn of(module: &Mod<'a>, prefix: &Rc<Path<'a>>) -> Mapping<'a> {
        let mut mapping = Mapping::new(prefix);
        for declaration in &module.body {
            mapping.declaration(declaration);
        }
        mapping
    }

    pub fn chosen(&self, name: Text<'a>) -> Option<&Rc<Path<'a>>> {
        let bases = self.provenance.get(&name)?;
        if bases.len() == 1 {
            return bases.iter().next();
        }
        bases.get(&self.prefix).or_else(|| bases.iter().find(|base| is_runtime(base)))
    }

    pub fn replacement(&self, operation: Operation) -> Replacement<'a> {
        let chosen = |&name| Some((name, self.chosen(name)?.clone()));
        Replacement { chosen: self.keys.iter().filter_map(chosen).collect(), operation }
    }

    /// Names and bases of the uses, in order.
    pub fn uses(&self) -> impl Iterator<Item = (Text<'a>, &Rc<Path<'a>>)> + '_ {
        self.keys
            .iter()
            .filter_map(|&name| Some((name, self.chosen(name)?)))
            .filter(|(_, base)| **base != self.prefix)
    }

    fn add(&mut self, name: Text<'a>, base: &Rc<Path<'a>>) {
        let bases = self.provenance.entry(name).or_insert_with(|| {
            self.keys.push(name);
            HashSet::new()
        });
        if bases.insert(base.clone()) {
            self.pairs.push((name, base.clone()));
        }
    }

    fn own(&mut self, name: Text<'a>) {
        self.add(name, &self.prefix.clone());
    }

    fn declaration(&mut self, declaration: &Declaration<'a>) {
        match declaration {
            // Nested modules are collected by themselves.
            Declaration::Module(module) => self.own(module.name()),
            // No fields.
            Declaration::Struct(it) => {
                self.own(it.name);
                self.params(&it.params);
            }
            Declaration::Type(it) => {
                self.own(it.name);
                self.params(&it.params);
                self.tpe(&it.tpe);
            }
            Declaration::Const(it) => {
                self.own(it.name);
                self.tpe(&it.tpe);
                self.expr(&it.value);
            }
            Declaration::Enum(it) => {
                self.own(it.name);
                self.params(&it.params);
                it.variants.iter().for_each(|case| self.fields(&case.fields));
            }
            Declaration::Impl(it) => {
                if let Some(for_type) = &it.for_type {
                    self.params(&it.params);
                    self.tpe(&it.tpe);
                    self.tpe(for_type);
                } else {
                    self.tpe(&it.tpe);
                }
                self.members(&it.body);
            }
            Declaration::Trait(it) => {
                let named = match &it.tpe {
                    Type::App(base, _) => base,
                    other => other,
                };
                if let Type::Identifier(name) = named {
                    self.own(*name);
                }
                self.params(&it.params);
                self.tpe(&it.tpe);
                self.types(&it.parents);
                self.members(&it.body);
            }
            Declaration::TopFn(it) => {
                self.own(it.function.name);
                self.function(&it.function);
            }
            Declaration::Use(_) | Declaration::Put(_) => {}
        }
    }

    fn params(&mut self, params: &[TypeParam<'a>]) {
        params.iter().for_each(|param| self.types(&param.constraints));
    }

    fn fields(&mut self, fields: &Fields<'a>) {
        match fields {
            Fields::Named(fields) => fields.iter().for_each(|field| self.tpe(&field.formal.tpe)),
            Fields::Nameless(fields) => fields.iter().for_each(|field| self.tpe(&field.tpe)),
        }
    }

    fn members(&mut self, members: &[Member<'a>]) {
        for member in members {
            match member {
                Member::Raw(_) => {}
                Member::Fn(_, _, _, function) => self.function(function),
                Member::Type(_, tpe) => self.tpe(tpe),
                Member::Macro(expr) => self.expr(expr),
            }
        }
    }

    fn function(&mut self, function: &Function<'a>) {
        self.params(&function.params);
        self.formals(&function.formals);
        self.types(&function.result);
        self.exprs(&function.body);
    }

    fn formals(&mut self, formals: &[Formal<'a>]) {
        formals.iter().for_each(|formal| self.tpe(&formal.tpe));
    }

    fn types<'t>(&mut self, types: impl IntoIterator<Item = &'t Type<'a>>)
    where
        'a: 't,
    {
        types.into_iter().for_each(|tpe| self.tpe(tpe));
    }

    fn exprs<'t>(&mut self, exprs: impl IntoIterator<Item = &'t Expr<'a>>)
    where
        'a: 't,
    {
        exprs.into_iter().for_each(|expr| self.expr(expr));
    }

    /// The node, then its parts; of a synonym the display only.
    fn tpe(&mut self, tpe: &Type<'a>) {
        match tpe {
            Type::Plain(_) | Type::Identifier(_) => {}
            Type::FromPath(path) => self.path(path, false),
            Type::App(base, arguments) => {
                self.tpe(base);
                self.types(arguments);
            }
            Type::Borrowed(inner)
            | Type::BorrowedMut(inner)
            | Type::Impl(inner)
            | Type::Dyn(inner)
            | Type::Array(inner, _)
            | Type::Synonym(inner, _)
            | Type::Short(inner, _)
            | Type::MetaData(inner, _, _) => self.tpe(inner),
            Type::Tuple(arguments) => self.types(arguments),
            Type::Fn(arguments, result) => {
                self.types(arguments);
                self.tpe(result);
            }
            Type::Intersection(left, right) => {
                self.tpe(left);
                self.tpe(right);
            }
        }
    }

    fn expr(&mut self, expr: &Expr<'a>) {
        match expr {
            Expr::FromPath(path) => self.path(path, true),
            Expr::Raw(_)
            | Expr::Identifier(_)
            | Expr::Short(_)
            | Expr::LiteralInt(_)
            | Expr::LiteralBool(_)
            | Expr::LiteralString(..)
            | Expr::Break(_)
            | Expr::Continue(_) => {}
            Expr::FromType(tpe) => self.tpe(tpe),
            Expr::Block(inner)
            | Expr::Unary(_, inner, _)
            | Expr::Assign(_, inner)
            | Expr::Labelled(_, inner)
            | Expr::Select(inner, _)
            | Expr::FunctionSelect(inner, _) => self.expr(inner),
            Expr::Stmt(first, second)
            | Expr::Binary(_, first, second, _)
            | Expr::For(_, first, second)
            | Expr::SelectIndex(first, second) => {
                self.expr(first);
                self.expr(second);
            }
            Expr::If(condition, then, other) => {
                self.expr(condition);
                self.expr(then);
                self.expr(other);
            }
            Expr::Match(matchee, cases) => {
                self.expr(matchee);
                cases.iter().for_each(|case| self.expr(&case.rhs));
            }
            Expr::StructBuild(underlying, assignments) => {
                self.expr(underlying);
                assignments.iter().for_each(|assignment| self.expr(&assignment.rhs));
            }
            Expr::Tuple(arguments) => self.exprs(arguments),
            Expr::TypeAscription(left, tpe) => {
                self.expr(left);
                self.tpe(tpe);
            }
            Expr::TraitCast(left, tpe) => {
                self.tpe(left);
                self.tpe(tpe);
            }
            Expr::DeclareVar(_, _, tpe, rhs) => {
                self.types(tpe);
                self.exprs(rhs.as_deref());
            }
            Expr::Loop(condition, underlying) => {
                self.exprs(condition.as_deref());
                self.expr(underlying);
            }
            Expr::Return(value) => self.exprs(value.as_deref()),
            Expr::CallType(object, arguments) => {
                self.expr(object);
                self.types(arguments);
            }
            Expr::Call(object, arguments) => {
                self.expr(object);
                self.exprs(arguments);
            }
            Expr::Lambda(formals, result, body) => {
                self.formals(formals);
                self.types(result);
                self.expr(body);
            }
        }
    }

    /// An expression's name loses one final mark.
    fn path(&mut self, path: &Path<'a>, marked: bool) {
        let Path::Member(base, name) = path else { return };
        if **base == Path::SelfType {
            return;
        }
        let name = match name.0 {
            [unmarked @ .., b'!'] if marked => Text(unmarked),
            _ => *name,
        };
        self.add(name, base);
    }
}
