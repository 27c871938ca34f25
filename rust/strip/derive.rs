//! What `derive_where` derives, written out: the bounds are those of the type's own parameters.

use super::{Fault, Strip};

/// A variant of an enum, or the only one of a struct.
struct Variant<'a> {
    /// Its name, and the path that patterns have.
    name: &'a str,
    path: String,
    /// The names of its fields but the ghosts, or their numbers.
    fields: Vec<String>,
    is_tuple: bool,
}

/// A type, as what is derived sees it.
struct Shape<'a> {
    name: &'a str,
    /// The generics of an implementation for it, and the arguments of the type in its head.
    params: String,
    args: String,
    variants: Vec<Variant<'a>>,
    is_enum: bool,
}

impl<'a> Strip<'a> {
    /// The implementations of traits for the struct or the enum at a token.
    ///
    /// It refuses a trait that it does not know, and a struct without braces.
    pub(super) fn derived(&self, i: usize, traits: &[&str]) -> Result<String, Fault> {
        let shape = self.shape(i)?;
        traits
            .iter()
            .try_fold(String::new(), |all, name| match written(&shape, name) {
                Some(one) => Ok(all + &one),
                None => self.fault(i, &format!("`{name}` is not known to be derived")),
            })
    }

    fn shape(&self, i: usize) -> Result<Shape<'a>, Fault> {
        let (is_enum, name) = (self.text(i) == "enum", self.text(i + 1));
        let (mut params, mut args, mut body) = (String::new(), String::new(), i + 2);
        if self.text(body) == "<" {
            let close = self.angle(body)?;
            for (from, upto) in self.parts(body, close)? {
                let stop = (from..upto)
                    .find(|at| self.text(*at) == "=")
                    .unwrap_or(upto);
                params = params + self.slice(from, stop) + ", ";
                let arg = if self.text(from) == "const" {
                    from + 1
                } else {
                    from
                };
                args = args + self.text(arg) + ", ";
            }
            body = close + 1;
        }
        if self.text(body) != "{" {
            return self.fault(body, "what is derived for this form is not known");
        }
        let variants = if is_enum {
            let parts = self.parts(body, self.behind(body) - 1)?;
            parts
                .into_iter()
                .map(|(from, _)| self.variant(self.lead_end(from)))
                .collect::<Result<_, _>>()?
        } else {
            vec![Variant {
                name,
                path: "Self".to_owned(),
                fields: self.named(body)?,
                is_tuple: false,
            }]
        };
        Ok(Shape {
            name,
            params,
            args,
            variants,
            is_enum,
        })
    }

    /// The variant of an enum at a token.
    fn variant(&self, i: usize) -> Result<Variant<'a>, Fault> {
        let (name, body) = (self.text(i), i + 1);
        let fields = match self.text(body) {
            "{" => self.named(body)?,
            "(" => (0..self.parts(body, self.behind(body) - 1)?.len())
                .map(|n| n.to_string())
                .collect(),
            _ => Vec::new(),
        };
        Ok(Variant {
            name,
            path: format!("Self::{name}"),
            fields,
            is_tuple: self.text(body) == "(",
        })
    }

    /// The names of the fields between braces, but of the ghosts.
    fn named(&self, open: usize) -> Result<Vec<String>, Fault> {
        let parts = self.parts(open, self.behind(open) - 1)?;
        let names = parts
            .into_iter()
            .map(|(from, _)| self.text(self.lead_end(from)));
        Ok(names
            .filter(|name| *name != "ghost")
            .map(str::to_owned)
            .collect())
    }
}

/// The implementation of a trait, where it is known.
fn written(shape: &Shape, name: &str) -> Option<String> {
    let (module, body) = match name {
        "Copy" => ("marker", String::new()),
        "Eq" => ("cmp", String::new()),
        "Clone" => ("clone", "fn clone(&self) -> Self { *self }".to_owned()),
        "Debug" => ("fmt", debug(shape)),
        "PartialEq" => ("cmp", equal(shape)),
        "PartialOrd" => ("cmp", partial_order()),
        "Ord" => ("cmp", order(shape)),
        "Hash" => ("hash", hash(shape)),
        _ => return None,
    };
    let Shape {
        name: of,
        params,
        args,
        ..
    } = shape;
    Some(
        format!(" impl<{params}> ::core::{module}::{name} for {of}<{args}> {{ {body} }}")
            .replace('\n', " "),
    )
}

/// Texts behind each other.
fn joined(parts: impl Iterator<Item = String>) -> String {
    parts.collect::<Vec<_>>().concat()
}

/// The pattern of a variant, whose fields get their names behind a letter.
fn pattern(variant: &Variant, letter: char) -> String {
    let fields: Vec<String> = variant
        .fields
        .iter()
        .map(|field| format!("{field}: {letter}{field}"))
        .collect();
    format!("{} {{ {} }}", variant.path, fields.join(", "))
}

/// A match on two values, with an arm for each pair of one variant and one for all others.
fn both(shape: &Shape, first: &str, each: impl Fn(&str) -> String, others: &str) -> String {
    let arms = joined(shape.variants.iter().map(|variant| {
        let parts = joined(variant.fields.iter().map(|field| each(field)));
        let (one, other) = (pattern(variant, 'a'), pattern(variant, 'b'));
        format!("({one}, {other}) => {first}{parts}, ")
    }));
    let others = if shape.variants.len() > 1 { others } else { "" };
    format!("match (self, other) {{ {arms}{others} }}")
}

fn equal(shape: &Shape) -> String {
    let each = |field: &str| format!(" && a{field} == b{field}");
    let all = both(shape, "true", each, "_ => false");
    format!("fn eq(&self, other: &Self) -> bool {{ {all} }}")
}

fn partial_order() -> String {
    let answer = "Option<::core::cmp::Ordering> { Some(::core::cmp::Ord::cmp(self, other)) }";
    format!("fn partial_cmp(&self, other: &Self) -> {answer}")
}

fn order(shape: &Shape) -> String {
    let each = |field: &str| format!(".then_with(|| ::core::cmp::Ord::cmp(a{field}, b{field}))");
    let equal = "::core::cmp::Ordering::Equal";
    let all = both(shape, equal, each, "_ => rank(self).cmp(&rank(other))");
    let variants = shape.variants.iter().enumerate();
    let arms = joined(variants.map(|(n, it)| format!("{} {{ .. }} => {n}_u8, ", it.path)));
    let rank = if shape.variants.len() > 1 {
        format!("let rank = |it: &Self| match it {{ {arms} }};")
    } else {
        String::new()
    };
    format!("fn cmp(&self, other: &Self) -> ::core::cmp::Ordering {{ {rank} {all} }}")
}

fn hash(shape: &Shape) -> String {
    let hashed = |what: &str| format!("::core::hash::Hash::hash({what}, state); ");
    let arms = joined(shape.variants.iter().enumerate().map(|(n, variant)| {
        let rank = if shape.is_enum {
            hashed(&format!("&{n}_isize"))
        } else {
            String::new()
        };
        let fields = joined(
            variant
                .fields
                .iter()
                .map(|field| hashed(&format!("a{field}"))),
        );
        format!("{} => {{ {rank}{fields} }} ", pattern(variant, 'a'))
    }));
    let head = "fn hash<Hashing: ::core::hash::Hasher>(&self, state: &mut Hashing)";
    format!("{head} {{ match self {{ {arms} }} }}")
}

fn debug(shape: &Shape) -> String {
    let arms = joined(shape.variants.iter().map(|variant| {
        let Variant {
            name,
            fields,
            is_tuple,
            ..
        } = variant;
        let (kind, name_of): (_, fn(&String) -> String) = match is_tuple {
            true => ("tuple", |_| String::new()),
            false => ("struct", |field| format!("{field:?}, ")),
        };
        let all = joined(
            fields
                .iter()
                .map(|it| format!(".field({}a{it})", name_of(it))),
        );
        let body = if fields.is_empty() {
            format!("f.write_str({name:?})")
        } else {
            format!("f.debug_{kind}({name:?}){all}.finish()")
        };
        format!("{} => {body}, ", pattern(variant, 'a'))
    }));
    let head = "fn fmt(&self, f: &mut ::core::fmt::Formatter<'_>) -> ::core::fmt::Result";
    format!("{head} {{ match self {{ {arms} }} }}")
}
