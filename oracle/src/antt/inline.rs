//! Puts small definitions in the place of their calls. All is total and without effects, so that this
//! changes no value: an argument is put where it is used if that is one place, else it is bound first.
use std::collections::HashMap;

use super::natives;
use super::scope::{Body, FnId, Ir, IrClause, IrPattern, Library, VarId, apply, parts};

const SMALL: usize = 80;
const LARGE: usize = 3_000;

#[derive(Clone, Copy, PartialEq)]
enum State {
    New,
    Doing,
    Done,
}

pub fn run(library: &mut Library) {
    let count = library.functions.len();
    let mut pass = Pass {
        state: vec![State::New; count],
        inlined: vec![None; count],
        library,
    };
    for id in 0..count {
        pass.function(id as FnId);
    }
}

/// Parameters and body of a definition that may stand in the place of its call.
type Small = (Vec<VarId>, Ir);

struct Pass<'a> {
    library: &'a mut Library,
    state: Vec<State>,
    inlined: Vec<Option<Small>>,
}

impl Pass<'_> {
    fn function(&mut self, id: FnId) {
        let at = id as usize;
        if self.state[at] != State::New {
            return;
        }
        self.state[at] = State::Doing;
        if let Body::Clauses(clauses) = self.library.functions[at].body.clone() {
            let clauses: Vec<IrClause> = clauses
                .into_iter()
                .map(|clause| IrClause {
                    body: self.term(clause.body),
                    patterns: clause.patterns,
                })
                .collect();
            let kept = natives::KEPT.contains(&self.library.functions[at].name.as_str());
            if let [clause] = &clauses[..]
                && let Some(parameters) = plain(&clause.patterns)
                && !kept
                && !calls(&clause.body, id)
                && size(&clause.body) <= SMALL
            {
                self.inlined[at] = Some((parameters, clause.body.clone()));
            }
            self.library.functions[at].body = Body::Clauses(clauses);
        }
        self.state[at] = State::Done;
    }

    fn terms(&mut self, all: Vec<Ir>) -> Vec<Ir> {
        all.into_iter().map(|ir| self.term(ir)).collect()
    }

    fn term(&mut self, ir: Ir) -> Ir {
        match ir {
            Ir::App(head, arguments) => {
                let (head, arguments) = (self.term(*head), self.terms(arguments));
                self.call(apply(head, arguments))
            }
            Ir::Global(_) => self.call(ir),
            Ir::Con(con, parts) => Ir::Con(con, self.terms(parts)),
            Ir::Record(shape, parts) => Ir::Record(shape, self.terms(parts)),
            Ir::Lam(vars, body) => Ir::Lam(vars, Box::new(self.term(*body))),
            Ir::Let(var, value, body) => {
                let (value, body) = (self.term(*value), self.term(*body));
                self.bind(var, value, body)
            }
            Ir::Field(of, name) => {
                let of = self.term(*of);
                self.field(of, name)
            }
            _ => ir,
        }
    }

    /// A call with its parts already done.
    fn call(&mut self, ir: Ir) -> Ir {
        let (head, arguments) = match ir {
            Ir::App(head, arguments) => (*head, arguments),
            head => (head, Vec::new()),
        };
        let (parameters, body) = match head {
            Ir::Global(id) => {
                self.function(id);
                let arity = self.library.functions[id as usize].arity;
                match &self.inlined[id as usize] {
                    Some(small) if arguments.len() >= arity => self.renewed(&small.clone()),
                    _ => return apply(head, arguments),
                }
            }
            Ir::Lam(parameters, body) if arguments.len() >= parameters.len() => (parameters, *body),
            Ir::Let(var, value, body) if !arguments.is_empty() => {
                // Variables are all different, so that nothing is caught.
                let body = self.call(apply(*body, arguments));
                return Ir::Let(var, value, Box::new(body));
            }
            head => return apply(head, arguments),
        };
        let mut arguments = arguments;
        let more = arguments.split_off(parameters.len());
        let mut body = body;
        for (var, value) in parameters.into_iter().zip(arguments).rev() {
            body = self.bind(var, value, body);
        }
        match more.is_empty() {
            true => body,
            false => self.call(apply(body, more)),
        }
    }

    fn field(&mut self, of: Ir, name: String) -> Ir {
        match of {
            Ir::Record(shape, mut parts) => match self.library.names.place(shape, &name) {
                Some(place) => parts.swap_remove(place),
                None => Ir::Bad(format!("no field {name}")),
            },
            Ir::Let(var, value, body) => {
                let body = self.field(*body, name);
                Ir::Let(var, value, Box::new(body))
            }
            of => Ir::Field(Box::new(of), name),
        }
    }

    fn bind(&mut self, var: VarId, value: Ir, body: Ir) -> Ir {
        let uses = uses(&body, var);
        let put = match &value {
            _ if uses.count == 0 => true,
            value if atomic(value) => true,
            Ir::Record(_, parts) if parts.iter().all(atomic) => true,
            Ir::Lam(..) | Ir::App(..) if uses.count == 1 && self.is_function(&value) => true,
            _ => uses.count == 1 && !uses.under,
        };
        match put && size(&body) < LARGE {
            true => self.replace(body, &HashMap::from([(var, value)])),
            false => Ir::Let(var, Box::new(value), Box::new(body)),
        }
    }

    /// A λ, or a call that lacks arguments: making it again costs nothing.
    fn is_function(&self, value: &Ir) -> bool {
        match value {
            Ir::Lam(..) => true,
            Ir::App(head, arguments) => match **head {
                Ir::Global(id) => {
                    arguments.len() < self.library.functions[id as usize].arity
                        && arguments.iter().all(atomic)
                }
                _ => false,
            },
            _ => false,
        }
    }

    /// With these values for the variables; calls that this makes are done.
    fn replace(&mut self, ir: Ir, values: &HashMap<VarId, Ir>) -> Ir {
        match ir {
            Ir::Var(var) => match values.get(&var) {
                Some(value) => self.copied(value.clone()),
                None => ir,
            },
            Ir::App(head, arguments) => {
                let head = self.replace(*head, values);
                let arguments = arguments.into_iter().map(|a| self.replace(a, values));
                let arguments = arguments.collect();
                self.call(apply(head, arguments))
            }
            Ir::Con(con, parts) => {
                let parts = parts.into_iter().map(|p| self.replace(p, values));
                Ir::Con(con, parts.collect())
            }
            Ir::Record(shape, parts) => {
                let parts = parts.into_iter().map(|p| self.replace(p, values));
                Ir::Record(shape, parts.collect())
            }
            Ir::Lam(vars, body) => Ir::Lam(vars, Box::new(self.replace(*body, values))),
            Ir::Let(var, value, body) => {
                let value = self.replace(*value, values);
                let body = self.replace(*body, values);
                self.bind(var, value, body)
            }
            Ir::Field(of, name) => {
                let of = self.replace(*of, values);
                self.field(of, name)
            }
            _ => ir,
        }
    }

    /// A value that is put in more than one place keeps its variables apart.
    fn copied(&mut self, ir: Ir) -> Ir {
        match atomic(&ir) {
            true => ir,
            false => self.renamed(ir, &mut HashMap::new()),
        }
    }

    fn renewed(&mut self, (parameters, body): &Small) -> Small {
        let mut names = HashMap::new();
        let parameters = parameters
            .iter()
            .map(|&var| self.renew(var, &mut names))
            .collect();
        let body = self.renamed(body.clone(), &mut names);
        (parameters, body)
    }

    fn renew(&mut self, var: VarId, names: &mut HashMap<VarId, VarId>) -> VarId {
        self.library.variables += 1;
        names.insert(var, self.library.variables);
        self.library.variables
    }

    fn renamed(&mut self, ir: Ir, names: &mut HashMap<VarId, VarId>) -> Ir {
        match ir {
            Ir::Var(var) => Ir::Var(names.get(&var).copied().unwrap_or(var)),
            Ir::App(head, arguments) => {
                let head = self.renamed(*head, names);
                let arguments = arguments.into_iter().map(|a| self.renamed(a, names));
                Ir::App(Box::new(head), arguments.collect())
            }
            Ir::Con(con, parts) => {
                let parts = parts.into_iter().map(|p| self.renamed(p, names));
                Ir::Con(con, parts.collect())
            }
            Ir::Record(shape, parts) => {
                let parts = parts.into_iter().map(|p| self.renamed(p, names));
                Ir::Record(shape, parts.collect())
            }
            Ir::Lam(vars, body) => {
                let vars = vars.into_iter().map(|var| self.renew(var, names));
                let vars = vars.collect();
                Ir::Lam(vars, Box::new(self.renamed(*body, names)))
            }
            Ir::Let(var, value, body) => {
                let value = self.renamed(*value, names);
                let var = self.renew(var, names);
                Ir::Let(var, Box::new(value), Box::new(self.renamed(*body, names)))
            }
            Ir::Field(of, name) => Ir::Field(Box::new(self.renamed(*of, names)), name),
            _ => ir,
        }
    }
}

/// The variables of patterns that are nothing else.
fn plain(patterns: &[IrPattern]) -> Option<Vec<VarId>> {
    let vars = patterns.iter().map(|pattern| match pattern {
        IrPattern::Var(var) => Some(*var),
        _ => None,
    });
    vars.collect()
}

fn atomic(ir: &Ir) -> bool {
    match ir {
        Ir::Var(_) | Ir::Int(_) | Ir::Text(_) | Ir::Bool(_) | Ir::Nil | Ir::Global(_) => true,
        Ir::Con(_, parts) => parts.is_empty(),
        _ => false,
    }
}

fn size(ir: &Ir) -> usize {
    1 + parts(ir).into_iter().map(size).sum::<usize>()
}

fn calls(ir: &Ir, id: FnId) -> bool {
    matches!(ir, Ir::Global(other) if *other == id) || parts(ir).iter().any(|part| calls(part, id))
}

/// How often a variable stands in a term, and whether under a λ.
struct Uses {
    count: usize,
    under: bool,
}

fn uses(ir: &Ir, var: VarId) -> Uses {
    if let Ir::Var(other) = ir {
        let count = usize::from(*other == var);
        return Uses {
            count,
            under: false,
        };
    }
    let mut all = Uses {
        count: 0,
        under: false,
    };
    for part in parts(ir) {
        let inner = uses(part, var);
        all.count += inner.count;
        all.under |= inner.under || matches!(ir, Ir::Lam(..)) && inner.count > 0;
    }
    all
}
