//! Replacing: PathSimplifier on RASTBottomUpReplacer.
use super::collect::Replacement;
use super::*;

impl<'a> Type<'a> {
    /// The parts, then the node: the function is given it and how many records are around it.
    fn replace(&mut self, around: u32, types: &impl Fn(&mut Type<'a>, u32)) {
        let inside = around + 1;
        let each = |all: &mut [Type<'a>]| all.iter_mut().for_each(|tpe| tpe.replace(inside, types));
        match self {
            Type::Plain(_) | Type::Identifier(_) | Type::FromPath(_) => {}
            Type::App(base, arguments) => {
                base.replace(inside, types);
                each(arguments);
            }
            Type::Borrowed(inner)
            | Type::BorrowedMut(inner)
            | Type::Impl(inner)
            | Type::Dyn(inner)
            | Type::Array(inner, _)
            | Type::MetaData(inner, _, _) => inner.replace(inside, types),
            Type::Tuple(arguments) => each(arguments),
            Type::Fn(arguments, result) => {
                each(arguments);
                result.replace(inside, types);
            }
            Type::Intersection(first, second) | Type::Synonym(first, second) | Type::Short(first, second) => {
                first.replace(inside, types);
                second.replace(inside, types);
            }
        }
        types(self, around);
    }
}

impl<'a> Expr<'a> {
    fn replace(&mut self, around: u32, exprs: &impl Fn(&mut Expr<'a>), types: &impl Fn(&mut Type<'a>, u32)) {
        let inside = around + 1;
        let one = |expr: &mut Expr<'a>| expr.replace(inside, exprs, types);
        let tpe = |tpe: &mut Type<'a>| tpe.replace(inside, types);
        match self {
            Expr::Raw(_)
            | Expr::Identifier(_)
            | Expr::Short(_)
            | Expr::FromPath(_)
            | Expr::LiteralInt(_)
            | Expr::LiteralBool(_)
            | Expr::LiteralString(..)
            | Expr::Break(_)
            | Expr::Continue(_) => {}
            Expr::FromType(of) => tpe(of),
            Expr::Block(inner)
            | Expr::Unary(_, inner, _)
            | Expr::Assign(_, inner)
            | Expr::Labelled(_, inner)
            | Expr::Select(inner, _)
            | Expr::FunctionSelect(inner, _) => one(inner),
            Expr::Stmt(first, second)
            | Expr::Binary(_, first, second, _)
            | Expr::For(_, first, second)
            | Expr::SelectIndex(first, second) => {
                one(first);
                one(second);
            }
            Expr::If(condition, then, other) => {
                one(condition);
                one(then);
                one(other);
            }
            Expr::Match(matchee, cases) => {
                one(matchee);
                cases.iter_mut().for_each(|case| one(&mut case.rhs));
            }
            Expr::StructBuild(underlying, assignments) => {
                one(underlying);
                assignments.iter_mut().for_each(|assignment| one(&mut assignment.rhs));
            }
            Expr::Tuple(arguments) => arguments.iter_mut().for_each(one),
            Expr::TypeAscription(left, of) => {
                one(left);
                tpe(of);
            }
            Expr::TraitCast(left, of) => {
                tpe(left);
                tpe(of);
            }
            Expr::DeclareVar(_, _, of, rhs) => {
                of.iter_mut().for_each(tpe);
                rhs.as_deref_mut().into_iter().for_each(one);
            }
            Expr::Loop(condition, underlying) => {
                condition.as_deref_mut().into_iter().for_each(one);
                one(underlying);
            }
            Expr::Return(value) => value.as_deref_mut().into_iter().for_each(one),
            Expr::CallType(object, arguments) => {
                one(object);
                arguments.iter_mut().for_each(tpe);
            }
            Expr::Call(object, arguments) => {
                one(object);
                arguments.iter_mut().for_each(one);
            }
            Expr::Lambda(formals, result, body) => {
                formals.iter_mut().for_each(|formal| tpe(&mut formal.tpe));
                result.iter_mut().for_each(tpe);
                one(body);
            }
        }
        exprs(self);
    }
}

impl<'a> Replacement<'a> {
    /// ReplaceTypeSingle, so many times over.
    fn type_single(&self, tpe: &mut Type<'a>, times: u32) {
        let Type::FromPath(Path::Member(base, name)) = &*tpe else { return };
        let name = *name;
        if !self.has(name, base) {
            return;
        }
        for left in (0..times).rev() {
            let old = Box::new(std::mem::replace(tpe, Type::Identifier(name)));
            let display = Box::new(Type::Identifier(name));
            *tpe = if left > 0 { Type::Synonym(display, old) } else { Type::Short(display, old) };
        }
    }

    /// ReplaceExprSingle: the whole name is tried first, then without its mark.
    fn expr_single(&self, expr: &mut Expr<'a>) {
        let Expr::FromPath(Path::Member(base, name)) = &*expr else { return };
        let name = *name;
        let unmarked = || name.0.strip_suffix(b"!").is_some_and(|unmarked| self.has(Text(unmarked), base));
        if self.has(name, base) || unmarked() {
            *expr = Expr::Short(name);
        }
    }

    /// A declaration that is no module. Uses aren't replaced.
    pub fn declaration(&self, declaration: &mut Declaration<'a>) {
        match declaration {
            Declaration::Module(_) | Declaration::Use(_) | Declaration::Put(_) => {}
            Declaration::Struct(it) => {
                self.params(&mut it.params);
                self.fields(&mut it.fields);
            }
            Declaration::Type(it) => {
                self.params(&mut it.params);
                self.tpe(&mut it.tpe);
            }
            Declaration::Const(it) => {
                self.tpe(&mut it.tpe);
                self.expr(&mut it.value);
            }
            Declaration::Enum(it) => {
                self.params(&mut it.params);
                it.variants.iter_mut().for_each(|case| self.fields(&mut case.fields));
            }
            Declaration::Impl(it) => {
                self.params(&mut it.params);
                self.tpe(&mut it.tpe);
                self.types(&mut it.for_type);
                self.members(&mut it.body);
            }
            Declaration::Trait(it) => {
                self.params(&mut it.params);
                self.tpe(&mut it.tpe);
                self.types(&mut it.parents);
                self.members(&mut it.body);
            }
            Declaration::TopFn(it) => self.function(&mut it.function),
        }
    }

    fn params(&self, params: &mut [TypeParam<'a>]) {
        params.iter_mut().for_each(|param| self.types(&mut param.constraints));
    }

    fn fields(&self, fields: &mut Fields<'a>) {
        match fields {
            Fields::Named(fields) => fields.iter_mut().for_each(|field| self.tpe(&mut field.formal.tpe)),
            Fields::Nameless(fields) => fields.iter_mut().for_each(|field| self.tpe(&mut field.tpe)),
        }
    }

    fn members(&self, members: &mut [Member<'a>]) {
        for member in members {
            match member {
                Member::Raw(_) => {}
                Member::Fn(_, _, _, function) => self.function(function),
                Member::Type(_, tpe) => self.tpe(tpe),
                Member::Macro(expr) => self.expr(expr),
            }
        }
    }

    fn types<'t>(&self, types: impl IntoIterator<Item = &'t mut Type<'a>>)
    where
        'a: 't,
    {
        types.into_iter().for_each(|tpe| self.tpe(tpe));
    }

    fn tpe(&self, tpe: &mut Type<'a>) {
        tpe.replace(0, &|tpe, _| self.type_single(tpe, 1));
    }

    fn expr(&self, expr: &mut Expr<'a>) {
        expr.replace(0, &|expr| self.expr_single(expr), &|tpe, _| self.type_single(tpe, 1));
    }

    /// Upstream's Replace is handed ReplaceType and ReplaceExpr, which walk again: a path type is wrapped once
    /// more for each type and expression around it, but in the type parameters.
    fn function(&self, function: &mut Function<'a>) {
        let times = |around| match self.operation {
            Operation::Upstream => around + 1,
            Operation::Straight => 1,
        };
        let counted = |tpe: &mut Type<'a>, around| self.type_single(tpe, times(around));
        self.params(&mut function.params);
        function.formals.iter_mut().for_each(|formal| formal.tpe.replace(0, &counted));
        function.result.iter_mut().for_each(|tpe| tpe.replace(0, &counted));
        function.body.iter_mut().for_each(|body| body.replace(0, &|expr| self.expr_single(expr), &counted));
    }

    /// The same as the text has it, walking again.
    #[cfg(test)]
    fn function_as_spelled(&self, function: &mut Function<'a>) {
        let tpe = |tpe: &mut Type<'a>, _| self.tpe(tpe);
        self.params(&mut function.params);
        function.formals.iter_mut().for_each(|formal| formal.tpe.replace(0, &tpe));
        function.result.iter_mut().for_each(|result| result.replace(0, &tpe));
        function.body.iter_mut().for_each(|body| body.replace(0, &|expr| self.expr(expr), &tpe));
    }
}

/// Counting gives what walking again gives.
#[test]
fn counted_as_spelled() {
    fn functions<'t, 'a>(module: &'t mut Mod<'a>) -> Vec<&'t mut Function<'a>> {
        let of_members = |members: &'t mut Vec<Member<'a>>| -> Vec<&'t mut Function<'a>> {
            let of_member = |member: &'t mut Member<'a>| match member {
                Member::Fn(_, _, _, function) => Some(function),
                _ => None,
            };
            members.iter_mut().filter_map(of_member).collect()
        };
        let of = |declaration: &'t mut Declaration<'a>| match declaration {
            Declaration::TopFn(it) => vec![&mut it.function],
            Declaration::Impl(it) => of_members(&mut it.body),
            Declaration::Trait(it) => of_members(&mut it.body),
            _ => vec![],
        };
        module.body.iter_mut().flat_map(of).collect()
    }

    let mut compared = 0;
    for case in crate::random::cases(11).take(4000) {
        let twice = [(); 2].map(|_| read(&case.card, &case.root, case.words));
        let [Ok((Module::Mod(mut counted), root)), Ok((Module::Mod(mut spelled), _))] = twice else {
            continue;
        };
        let mapping = Mapping::of(&counted, &select(&root, counted.name));
        let replacement = mapping.replacement(Operation::Upstream);
        for (counted, spelled) in functions(&mut counted).into_iter().zip(functions(&mut spelled)) {
            let before = bytes(&*counted);
            replacement.function(counted);
            replacement.function_as_spelled(spelled);
            let after = bytes(&*counted);
            compared += (before != after) as usize;
            assert!(after == bytes(&*spelled));
        }
    }
    assert!(compared > 500, "{compared}");
}
