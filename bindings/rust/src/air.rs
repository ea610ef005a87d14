//! Constraints on the rows of a trace, written as arithmetic on its columns.

use crate::sha256::sha256;
use crate::ORDER;
use std::cell::RefCell;
use std::collections::{BTreeSet, HashMap};
use std::ops::{Add, Mul, Neg, Sub};

// A step of the arithmetic. Operands of the last four are earlier nodes, by number.
#[derive(Clone, Copy, Debug, PartialEq, Eq, Hash)]
enum Node {
    Local(usize),
    Next(usize),
    Periodic(usize),
    Public(usize),
    Constant(u32),
    Add(usize, usize),
    Sub(usize, usize),
    Mul(usize, usize),
    Neg(usize),
}

#[derive(Clone, Copy, Debug, PartialEq, Eq)]
enum When {
    Every,
    First,
    Last,
    Transition,
}

#[derive(Clone, Debug)]
struct Constraint {
    node: usize,
    when: When,
    name: Option<String>,
}

// What is appended to.
#[derive(Clone, Debug, Default)]
struct Parts {
    nodes: Vec<Node>,
    numbers: HashMap<Node, usize>,
    periodic_columns: Vec<Vec<u32>>,
    constraints: Vec<Constraint>,
}

/// The constraints of a trace.
///
/// ```
/// let air = circle::Air::new(2, 1);
/// let [a, b] = air.columns();
/// air.first_row().assert_eq(a * b, air.public_value(0));
/// air.transition().assert_eq(air.next_column(0), a + 1).named("a counts");
/// air.every_row().assert_bool(b);
/// ```
///
/// Equal expressions are one, such as `a + b` and `b + a`, and those that no constraint uses are
/// left out. Constants are computed, and `x + 0`, `x - 0` and `x * 1` are `x`. `docs/STARK.md` says
/// what an AIR is, and when the rows of a trace satisfy it.
#[derive(Clone, Debug)]
pub struct Air {
    width: usize,
    num_public_values: usize,
    parts: RefCell<Parts>,
}

impl Air {
    /// An AIR of `width` columns and `num_public_values` public values, without a constraint.
    ///
    /// # Panics
    ///
    /// If there is no column.
    #[must_use]
    pub fn new(width: usize, num_public_values: usize) -> Self {
        assert!(width > 0, "an AIR needs at least one column");
        let mut parts = Parts::default();
        let columns = (0..width).map(Node::Local);
        let next = (0..width).map(Node::Next);
        for node in columns
            .chain(next)
            .chain((0..num_public_values).map(Node::Public))
        {
            parts.number(node);
        }
        let parts = RefCell::new(parts);
        Air {
            width,
            num_public_values,
            parts,
        }
    }

    /// The entry of a row in a column.
    ///
    /// # Panics
    ///
    /// If there is no such column.
    pub fn column(&self, index: usize) -> Expr<'_> {
        assert!(index < self.width, "there are {} columns", self.width);
        self.expr(Node::Local(index))
    }

    /// The entry of the next row in a column. After the last row comes the first.
    ///
    /// # Panics
    ///
    /// If there is no such column.
    pub fn next_column(&self, index: usize) -> Expr<'_> {
        assert!(index < self.width, "there are {} columns", self.width);
        self.expr(Node::Next(index))
    }

    /// A value that prover and verifier both know.
    ///
    /// # Panics
    ///
    /// If there is no such public value.
    pub fn public_value(&self, index: usize) -> Expr<'_> {
        let count = self.num_public_values;
        assert!(index < count, "there are {count} public values");
        self.expr(Node::Public(index))
    }

    /// The entries of a row in all columns.
    ///
    /// # Panics
    ///
    /// If there are more or fewer columns than that.
    #[must_use]
    pub fn columns<const N: usize>(&self) -> [Expr<'_>; N] {
        assert_eq!(N, self.width, "the number of columns");
        std::array::from_fn(|index| self.column(index))
    }

    /// The entries of the next row in all columns.
    ///
    /// # Panics
    ///
    /// If there are more or fewer columns than that.
    #[must_use]
    pub fn next_columns<const N: usize>(&self) -> [Expr<'_>; N] {
        assert_eq!(N, self.width, "the number of columns");
        std::array::from_fn(|index| self.next_column(index))
    }

    /// All public values.
    ///
    /// # Panics
    ///
    /// If there are more or fewer public values than that.
    #[must_use]
    pub fn public_values<const N: usize>(&self) -> [Expr<'_>; N] {
        assert_eq!(N, self.num_public_values, "the number of public values");
        std::array::from_fn(|index| self.public_value(index))
    }

    /// A column that both sides know: row i has the entry i modulo their number.
    ///
    /// # Panics
    ///
    /// If that number isn't a power of two.
    pub fn periodic(&self, entries: &[u32]) -> Expr<'_> {
        let period = entries.len();
        assert!(
            period.is_power_of_two(),
            "a period of {period} rows isn't a power of two"
        );
        let column: Vec<u32> = entries.iter().map(|entry| entry % ORDER).collect();
        let mut parts = self.parts.borrow_mut();
        let found = parts.periodic_columns.iter().position(|it| *it == column);
        let index = found.unwrap_or_else(|| {
            parts.periodic_columns.push(column);
            parts.periodic_columns.len() - 1
        });
        drop(parts);
        self.expr(Node::Periodic(index))
    }

    /// The same value at each row.
    pub fn constant(&self, value: impl Into<i128>) -> Expr<'_> {
        self.element(value.into())
    }

    /// Constraints at each row.
    pub fn every_row(&self) -> Place<'_> {
        self.place(When::Every)
    }

    /// Constraints at the first row.
    pub fn first_row(&self) -> Place<'_> {
        self.place(When::First)
    }

    /// Constraints at the last row.
    pub fn last_row(&self) -> Place<'_> {
        self.place(When::Last)
    }

    /// Constraints at each row but the last, of it and the next.
    pub fn transition(&self) -> Place<'_> {
        self.place(When::Transition)
    }

    /// The JSON text of the AIR, with ascending keys.
    #[must_use]
    pub fn to_json(&self) -> String {
        let kept = self.parts.borrow().kept();
        let constraints = listed(kept.constraints.iter().map(Constraint::json));
        let nodes = listed(kept.nodes.iter().map(Node::json));
        let columns = listed(kept.periodic_columns.iter().map(|it| listed(it.iter())));
        format!(
            "{{\"constraints\":{constraints},\"nodes\":{nodes},\"num_public_values\":{},\
             \"periodic_columns\":{columns},\"width\":{}}}",
            self.num_public_values, self.width
        )
    }

    /// The digest of the AIR, which `stark_tool verify` writes: 64 hexadecimal digits.
    #[must_use]
    pub fn digest(&self) -> String {
        let kept = self.parts.borrow().kept();
        let element = |value: &u32| value.to_be_bytes().to_vec();
        let columns = kept
            .periodic_columns
            .iter()
            .map(|it| spelled(it.iter().map(element)));
        let text = [
            b"circle-air\x01".to_vec(),
            [4, self.width, self.num_public_values].map(be64).concat(),
            spelled(columns),
            spelled(kept.nodes.iter().map(Node::text)),
            spelled(kept.constraints.iter().map(Constraint::text)),
        ];
        let digest = sha256(&text.concat());
        digest.iter().map(|byte| format!("{byte:02x}")).collect()
    }

    // The name of a constraint, by its number.
    pub(crate) fn constraint_name(&self, number: usize) -> Option<String> {
        self.parts.borrow().constraints.get(number)?.name.clone()
    }

    fn place(&self, when: When) -> Place<'_> {
        Place { air: self, when }
    }

    fn expr(&self, node: Node) -> Expr<'_> {
        let node = self.parts.borrow_mut().number(node);
        Expr { air: self, node }
    }

    fn element(&self, value: i128) -> Expr<'_> {
        self.expr(Node::Constant(modulo(value)))
    }

    fn expr_of(&self, value: Value) -> Expr<'_> {
        match value {
            Value::Node(node) => Expr { air: self, node },
            Value::Constant(value) => self.expr(Node::Constant(value)),
        }
    }

    // The expression of an operation.
    fn combined(&self, operation: Operation, left: Value, right: Value) -> Expr<'_> {
        let neutral = operation.neutral();
        match (left, right) {
            (Value::Constant(a), Value::Constant(b)) => {
                self.expr(Node::Constant(operation.compute(a, b)))
            }
            (_, Value::Constant(b)) if b == neutral => self.expr_of(left),
            (Value::Constant(a), _) if a == neutral && operation != Operation::Sub => {
                self.expr_of(right)
            }
            _ => {
                let (left, right) = (self.expr_of(left), self.expr_of(right));
                self.expr(operation.node(left.node, right.node))
            }
        }
    }
}

impl Parts {
    // The number of a node, which is appended unless there is an equal one.
    fn number(&mut self, node: Node) -> usize {
        let next = self.nodes.len();
        let number = *self.numbers.entry(node.key()).or_insert(next);
        if number == next {
            self.nodes.push(node);
        }
        number
    }

    // These parts without the nodes that no constraint uses.
    fn kept(&self) -> Parts {
        let mut used: BTreeSet<usize> = self.constraints.iter().map(|it| it.node).collect();
        for (number, node) in self.nodes.iter().enumerate().rev() {
            if used.contains(&number) {
                used.extend(node.earlier());
            }
        }
        let numbers: HashMap<usize, usize> = used.iter().copied().zip(0..).collect();
        let constraint = |it: &Constraint| Constraint {
            node: numbers[&it.node],
            ..it.clone()
        };
        Parts {
            nodes: used
                .iter()
                .map(|it| self.nodes[*it].renumbered(&numbers))
                .collect(),
            numbers: HashMap::new(),
            periodic_columns: self.periodic_columns.clone(),
            constraints: self.constraints.iter().map(constraint).collect(),
        }
    }
}

impl Node {
    // The node, by which equal ones are found.
    fn key(self) -> Node {
        match self {
            Node::Add(a, b) => Node::Add(a.min(b), a.max(b)),
            Node::Mul(a, b) => Node::Mul(a.min(b), a.max(b)),
            node => node,
        }
    }

    // The nodes that it is computed of.
    fn earlier(self) -> Vec<usize> {
        match self {
            Node::Add(a, b) | Node::Sub(a, b) | Node::Mul(a, b) => vec![a, b],
            Node::Neg(a) => vec![a],
            _ => Vec::new(),
        }
    }

    fn renumbered(self, numbers: &HashMap<usize, usize>) -> Node {
        match self {
            Node::Add(a, b) => Node::Add(numbers[&a], numbers[&b]),
            Node::Sub(a, b) => Node::Sub(numbers[&a], numbers[&b]),
            Node::Mul(a, b) => Node::Mul(numbers[&a], numbers[&b]),
            Node::Neg(a) => Node::Neg(numbers[&a]),
            node => node,
        }
    }

    fn json(&self) -> String {
        match self {
            Node::Local(it) => format!("{{\"local\":{it}}}"),
            Node::Next(it) => format!("{{\"next\":{it}}}"),
            Node::Periodic(it) => format!("{{\"periodic\":{it}}}"),
            Node::Public(it) => format!("{{\"public\":{it}}}"),
            Node::Constant(it) => format!("{{\"constant\":{it}}}"),
            Node::Add(a, b) => format!("{{\"add\":[{a},{b}]}}"),
            Node::Sub(a, b) => format!("{{\"sub\":[{a},{b}]}}"),
            Node::Mul(a, b) => format!("{{\"mul\":[{a},{b}]}}"),
            Node::Neg(a) => format!("{{\"neg\":{a}}}"),
        }
    }

    // The bytes that stand for it in the text that is hashed.
    fn text(&self) -> Vec<u8> {
        let (kind, operands) = match *self {
            Node::Local(it) => (0, be64(it)),
            Node::Next(it) => (1, be64(it)),
            Node::Periodic(it) => (2, be64(it)),
            Node::Public(it) => (3, be64(it)),
            Node::Constant(it) => (4, it.to_be_bytes().to_vec()),
            Node::Add(a, b) => (5, [a, b].map(be64).concat()),
            Node::Sub(a, b) => (6, [a, b].map(be64).concat()),
            Node::Mul(a, b) => (7, [a, b].map(be64).concat()),
            Node::Neg(a) => (8, be64(a)),
        };
        [vec![kind], operands].concat()
    }
}

impl When {
    fn name(self) -> &'static str {
        match self {
            When::Every => "every",
            When::First => "first",
            When::Last => "last",
            When::Transition => "transition",
        }
    }
}

impl Constraint {
    fn json(&self) -> String {
        format!(
            "{{\"node\":{},\"when\":\"{}\"}}",
            self.node,
            self.when.name()
        )
    }

    fn text(&self) -> Vec<u8> {
        [vec![self.when as u8], be64(self.node)].concat()
    }
}

/// What has a value at each row of a trace: a column or what is computed of columns.
///
/// `+`, `-` and `*` take expressions of one AIR and whole numbers, modulo [`ORDER`]. They panic on
/// expressions of different ones.
#[derive(Clone, Copy, Debug)]
pub struct Expr<'a> {
    air: &'a Air,
    node: usize,
}

impl<'a> Expr<'a> {
    /// The expression to the power of `exponent`. The power of 0 is 1.
    #[must_use]
    pub fn pow(self, exponent: u32) -> Self {
        let Some(first) = exponent.checked_ilog2() else {
            return self.air.element(1);
        };
        (0..first).rev().fold(self, |power, bit| {
            let square = power * power;
            if exponent >> bit & 1 == 1 {
                square * self
            } else {
                square
            }
        })
    }

    fn value(self) -> Value {
        match self.air.parts.borrow().nodes[self.node] {
            Node::Constant(value) => Value::Constant(value),
            _ => Value::Node(self.node),
        }
    }
}

// What an operation is of.
#[derive(Clone, Copy)]
enum Value {
    Node(usize),
    Constant(u32),
}

#[derive(Clone, Copy, PartialEq, Eq)]
enum Operation {
    Add,
    Sub,
    Mul,
}

impl Operation {
    fn compute(self, a: u32, b: u32) -> u32 {
        let (a, b) = (i128::from(a), i128::from(b));
        modulo(match self {
            Operation::Add => a + b,
            Operation::Sub => a - b,
            Operation::Mul => a * b,
        })
    }

    // The constant that changes nothing behind it.
    fn neutral(self) -> u32 {
        u32::from(self == Operation::Mul)
    }

    fn node(self, a: usize, b: usize) -> Node {
        match self {
            Operation::Add => Node::Add(a, b),
            Operation::Sub => Node::Sub(a, b),
            Operation::Mul => Node::Mul(a, b),
        }
    }
}

impl Neg for Expr<'_> {
    type Output = Self;

    fn neg(self) -> Self {
        match self.value() {
            Value::Constant(value) => self.air.element(-i128::from(value)),
            Value::Node(node) => self.air.expr(Node::Neg(node)),
        }
    }
}

/// What stands for an expression of an AIR: itself, or a whole number for a constant.
pub trait Operand<'a> {
    /// The expression of this AIR.
    fn of(self, air: &'a Air) -> Expr<'a>;
}

impl<'a> Operand<'a> for Expr<'a> {
    fn of(self, air: &'a Air) -> Expr<'a> {
        assert!(
            std::ptr::eq(self.air, air),
            "the expression belongs to another AIR"
        );
        self
    }
}

// The operations of two expressions, and those of one and a whole number.
macro_rules! operations {
    ($($operation:ident $call:ident $numbers:tt)*) => {$(
        impl<'a> $operation for Expr<'a> {
            type Output = Self;

            fn $call(self, other: Self) -> Self {
                let air = self.air;
                assert!(std::ptr::eq(air, other.air), "the expressions belong to different AIRs");
                air.combined(Operation::$operation, self.value(), other.value())
            }
        }

        operations!(@ $operation $call $numbers);
    )*};
    (@ $operation:ident $call:ident ($($number:ty)*)) => {$(
        impl<'a> $operation<$number> for Expr<'a> {
            type Output = Self;

            fn $call(self, other: $number) -> Self {
                let other = Value::Constant(modulo(other.into()));
                self.air.combined(Operation::$operation, self.value(), other)
            }
        }

        impl<'a> $operation<Expr<'a>> for $number {
            type Output = Expr<'a>;

            fn $call(self, other: Expr<'a>) -> Expr<'a> {
                let own = Value::Constant(modulo(self.into()));
                other.air.combined(Operation::$operation, own, other.value())
            }
        }
    )*};
}

operations! {
    Add add (i32 u32 i64 u64)
    Sub sub (i32 u32 i64 u64)
    Mul mul (i32 u32 i64 u64)
}

// What a whole number stands for.
macro_rules! constants {
    ($($number:ty)*) => {$(
        impl<'a> Operand<'a> for $number {
            fn of(self, air: &'a Air) -> Expr<'a> {
                air.constant(self)
            }
        }
    )*};
}

constants!(i32 u32 i64 u64);

/// The rows at which a constraint holds.
#[derive(Clone, Copy, Debug)]
pub struct Place<'a> {
    air: &'a Air,
    when: When,
}

impl<'a> Place<'a> {
    /// Requires an expression to be 0.
    pub fn assert_zero(self, value: impl Operand<'a>) -> Asserted<'a> {
        let node = value.of(self.air).node;
        let (when, name) = (self.when, None);
        let constraints = &mut self.air.parts.borrow_mut().constraints;
        constraints.push(Constraint { node, when, name });
        Asserted {
            air: self.air,
            number: constraints.len() - 1,
        }
    }

    /// Requires two expressions to be equal.
    pub fn assert_eq(self, left: impl Operand<'a>, right: impl Operand<'a>) -> Asserted<'a> {
        self.assert_zero(left.of(self.air) - right.of(self.air))
    }

    /// Requires an expression to be 0 or 1.
    pub fn assert_bool(self, value: impl Operand<'a>) -> Asserted<'a> {
        let value = value.of(self.air);
        self.assert_zero(value * value - value)
    }
}

/// A constraint that was made.
#[derive(Clone, Copy, Debug)]
pub struct Asserted<'a> {
    air: &'a Air,
    number: usize,
}

impl Asserted<'_> {
    /// Names the constraint: an error calls it so.
    pub fn named(self, name: impl Into<String>) {
        self.air.parts.borrow_mut().constraints[self.number].name = Some(name.into());
    }
}

// The element that a whole number is modulo the order.
fn modulo(value: i128) -> u32 {
    value.rem_euclid(ORDER.into()) as u32
}

/// A list of JSON.
pub(crate) fn listed(items: impl Iterator<Item = impl ToString>) -> String {
    let items: Vec<String> = items.map(|item| item.to_string()).collect();
    format!("[{}]", items.join(","))
}

fn be64(number: usize) -> Vec<u8> {
    (number as u64).to_be_bytes().to_vec()
}

// The bytes of a list in the text that is hashed.
fn spelled(items: impl ExactSizeIterator<Item = Vec<u8>>) -> Vec<u8> {
    let count = be64(items.len());
    [count, items.flatten().collect()].concat()
}
