//! The natural-deduction tree, read in its room.

use std::fmt;

use crate::number::{Name, PropositionNumber, Serial, Term};
use crate::proposition::Proposition;
use crate::record::{word, RECORD};

/// The tree of an accepted script. Its records stand parent first, then the premises from left to
/// right, each with all that is above it.
///
/// ```
/// use sporekettle::{check, Rule, Space};
#[doc = include_str!("sample.txt")]
///
/// // fun x. fun h. (x, h) : all x:D. (P(x) -> ex y:D. P(y))
/// let mut space = Space::new();
/// let tree = check(&witness(), space.rooms())?.tree();
/// assert_eq!(tree.root().rule(), Rule::ForAllIntro);
/// let rules: Vec<String> = tree.nodes().map(|node| node.rule().to_string()).collect();
/// assert_eq!(rules, ["ForAllIntro", "ImplIntro", "ExistsIntro", "Ident", "Ident"]);
/// assert_eq!(tree.node(2).expect("there are 5").rule(), Rule::ExistsIntro);
/// assert!(tree.node(tree.len()).is_none());
/// # Ok::<(), sporekettle::Refusal>(())
/// ```
#[derive(Clone, Copy)]
pub struct Tree<'a> {
    records: &'a [u8],
    propositions: &'a [u8],
}

// A tree has its root, so there is no `is_empty`.
#[allow(clippy::len_without_is_empty)]
impl<'a> Tree<'a> {
    pub(crate) fn new(records: &'a [u8], propositions: &'a [u8]) -> Tree<'a> {
        Tree {
            records,
            propositions,
        }
    }

    /// How many nodes there are.
    pub fn len(&self) -> usize {
        self.records.len() / RECORD
    }

    /// The node that concludes what was to be proved.
    pub fn root(&self) -> Node<'a> {
        self.at(0)
    }

    /// Node number `index`, from 0 for the root.
    pub fn node(&self, index: usize) -> Option<Node<'a>> {
        (index < self.len()).then(|| self.at(index))
    }

    /// All nodes in the order of their records.
    pub fn nodes(&self) -> impl ExactSizeIterator<Item = Node<'a>> + 'a {
        let tree = *self;
        (0..self.len()).map(move |index| tree.at(index))
    }

    fn at(&self, index: usize) -> Node<'a> {
        let start = RECORD * index;
        Node {
            tree: *self,
            index,
            record: &self.records[start..start + RECORD],
        }
    }
}

impl fmt::Debug for Tree<'_> {
    fn fmt(&self, f: &mut fmt::Formatter<'_>) -> fmt::Result {
        f.debug_list().entries(self.nodes()).finish()
    }
}

/// One node of a tree.
///
/// ```
/// use sporekettle::{check, Conclusion, Name, Rule, Serial, Serials, Space, Term};
#[doc = include_str!("sample.txt")]
///
/// // fun x. fun h. (x, h) : all x:D. (P(x) -> ex y:D. P(y))
/// let mut space = Space::new();
/// let tree = check(&witness(), space.rooms())?.tree();
/// let pair = tree.node(2).expect("the third of five");
/// assert_eq!((pair.index(), pair.rule(), pair.term()), (2, Rule::ExistsIntro, Term(2)));
///
/// let premises: Vec<_> = pair.premises().collect();
/// // x is an object of D, which is name 12; its identifier has serial 0
/// assert!(matches!(premises[0].conclusion(), Conclusion::Datatype(Name(12))));
/// assert_eq!(premises[0].serials(), Serials { first: Some(Serial(0)), second: None });
/// // h proves P of it
/// match premises[1].conclusion() {
///     Conclusion::Proposition(holds) => assert_eq!(holds.to_string(), "#13($0)"),
///     other => panic!("{other:?}"),
/// }
/// # Ok::<(), sporekettle::Refusal>(())
/// ```
#[derive(Clone, Copy)]
pub struct Node<'a> {
    tree: Tree<'a>,
    index: usize,
    record: &'a [u8],
}

impl<'a> Node<'a> {
    /// Its number in the tree, from 0 for the root.
    pub fn index(&self) -> usize {
        self.index
    }

    /// The rule by which it concludes.
    pub fn rule(&self) -> Rule {
        // An accepted tree has no other rules than these.
        Rule::ALL[usize::from(self.record[0])]
    }

    /// The term that it stands for.
    pub fn term(&self) -> Term {
        Term(word(self.record, 2))
    }

    /// What it concludes.
    pub fn conclusion(&self) -> Conclusion<'a> {
        let number = word(self.record, 4);
        match self.record[1] {
            0 => Conclusion::Proposition(Proposition::new(
                self.tree.propositions,
                PropositionNumber(number),
            )),
            _ => Conclusion::Datatype(Name(number)),
        }
    }

    /// The serials that the rule uses or makes.
    pub fn serials(&self) -> Serials {
        Serials {
            first: self.serial(6),
            second: self.serial(8),
        }
    }

    fn serial(&self, at: usize) -> Option<Serial> {
        Some(Serial(word(self.record, at))).filter(|serial| serial.0 != u16::MAX)
    }

    /// Its direct premises from left to right. A walk over a whole tree that asks every node looks
    /// at each record at most as often as the node is deep.
    pub fn premises(&self) -> Premises<'a> {
        Premises {
            tree: self.tree,
            next: self.index + 1,
            left: self.premise_count(),
        }
    }

    fn premise_count(&self) -> usize {
        word(self.record, 10).into()
    }

    /// The number behind the last node above this one.
    fn end(&self) -> usize {
        let mut end = self.index;
        let mut missing = 1;
        while missing > 0 {
            missing += self.tree.at(end).premise_count();
            missing -= 1;
            end += 1;
        }
        end
    }
}

impl fmt::Debug for Node<'_> {
    fn fmt(&self, f: &mut fmt::Formatter<'_>) -> fmt::Result {
        f.debug_struct("Node")
            .field("rule", &self.rule())
            .field("term", &self.term())
            .field("conclusion", &self.conclusion())
            .field("serials", &self.serials())
            .field("premises", &self.premise_count())
            .finish()
    }
}

/// The direct premises of a node: an iterator.
#[derive(Clone)]
pub struct Premises<'a> {
    tree: Tree<'a>,
    next: usize,
    left: usize,
}

impl<'a> Iterator for Premises<'a> {
    type Item = Node<'a>;

    fn next(&mut self) -> Option<Node<'a>> {
        self.left = self.left.checked_sub(1)?;
        let premise = self.tree.at(self.next);
        if self.left > 0 {
            self.next = premise.end();
        }
        Some(premise)
    }

    fn size_hint(&self) -> (usize, Option<usize>) {
        (self.left, Some(self.left))
    }
}

impl ExactSizeIterator for Premises<'_> {}

impl fmt::Debug for Premises<'_> {
    fn fmt(&self, f: &mut fmt::Formatter<'_>) -> fmt::Result {
        f.debug_list().entries(self.clone()).finish()
    }
}

/// What a node concludes.
#[derive(Clone, Copy, Debug)]
pub enum Conclusion<'a> {
    /// That a proposition holds.
    Proposition(Proposition<'a>),
    /// That the node's identifier, its first serial, is an object of the datatype of this name.
    Datatype(Name),
}

/// The serials of a node. A serial stands for an identifier: each binder of a run has its own, and
/// a premise that uses an identifier bears the serial of the node that made it.
///
/// | Rule | first | second |
/// |---|---|---|
#[doc = include_str!(concat!(env!("OUT_DIR"), "/serials.md"))]
/// | any other | none | none |
#[derive(Clone, Copy, Debug, PartialEq, Eq, Hash)]
pub struct Serials {
    /// The first serial.
    pub first: Option<Serial>,
    /// The second serial.
    pub second: Option<Serial>,
}

macro_rules! rules {
    ($($name:ident),*) => {
        /// A rule of natural deduction. `Display` writes its name.
        ///
        /// ```
        /// use sporekettle::Rule;
        ///
        /// assert_eq!(Rule::ImplIntro.to_string(), "ImplIntro");
        /// assert_eq!(Rule::ImplIntro.number(), 5);
        /// assert_eq!(Rule::ALL[5], Rule::ImplIntro);
        /// ```
        #[derive(Clone, Copy, Debug, PartialEq, Eq, Hash)]
        #[allow(missing_docs)] // The names are those of the rules.
        pub enum Rule {
            $($name),*
        }

        impl Rule {
            /// All rules, each at its number.
            pub const ALL: [Rule; [$(Rule::$name),*].len()] = [$(Rule::$name),*];
        }
    };
}

// The rules of docs/rules.txt, by build/words.rs.
include!(concat!(env!("OUT_DIR"), "/rules.rs"));

impl Rule {
    /// Its number in a tree record.
    pub fn number(self) -> u8 {
        self as u8
    }
}

impl fmt::Display for Rule {
    fn fmt(&self, f: &mut fmt::Formatter<'_>) -> fmt::Result {
        write!(f, "{self:?}")
    }
}
