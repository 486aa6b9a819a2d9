//! Sound messages for random inputs: where the next one stands in a graph, and its item's bytes.

use crate::random::Random;
use crate::sha256::{sha256, DIGEST};
use crate::store::{Graph, Message, Name};

/// How random messages are chosen; all but the first are chances of a hundred.
#[derive(Clone, Copy)]
pub struct Shape {
    pub authors: usize,
    pub fork: usize,
    pub another_first: usize,
    pub depend: usize,
}

impl Shape {
    /// Chains that never fork and depend on nothing.
    pub fn straight(authors: usize) -> Shape {
        Shape {
            authors,
            fork: 0,
            another_first: 0,
            depend: 0,
        }
    }

    /// A shape that is chosen at random.
    pub fn any(random: &mut Random) -> Shape {
        Shape {
            authors: random.pick(&[1, 2, 3, 4, 6]),
            fork: random.pick(&[0, 15, 50, 90, 90]),
            another_first: random.pick(&[0, 0, 10, 30]),
            depend: random.pick(&[0, 20, 60, 100]),
        }
    }
}

/// Where a message stands in a graph. The author may be one above the count: a new one.
pub struct Plan {
    pub author: u16,
    pub previous: u16,
    pub dependencies: Vec<u16>,
}

impl Plan {
    /// A sound place for one more message.
    pub fn any(random: &mut Random, graph: &Graph, shape: &Shape) -> Plan {
        let held = graph.keys.len();
        let author = random.between(1, shape.authors.max(1)).min(held + 1) as u16;
        let own = graph.rows_of(author);
        let previous = match own.last() {
            Some(_) if random.chance(shape.another_first) => 0,
            Some(_) if random.chance(shape.fork / 2) => random.pick(&own[..own.len().min(2)]),
            Some(_) if random.chance(shape.fork / 2) => random.pick(&own),
            Some(&tip) => tip,
            None => 0,
        };
        let mut dependencies = Vec::new();
        for other in (1..=held as u16).filter(|&other| other != author) {
            if random.chance(shape.depend) {
                dependencies.push(random.pick(&graph.rows_of(other)));
            }
        }
        random.shuffle(&mut dependencies);
        Plan {
            author,
            previous,
            dependencies,
        }
    }

    /// The first message of an author, which depends on nothing.
    pub fn first_of(author: u16) -> Plan {
        Plan {
            author,
            previous: 0,
            dependencies: Vec::new(),
        }
    }

    /// The index of the message.
    fn index(&self, graph: &Graph) -> u16 {
        if self.previous == 0 {
            1
        } else {
            graph.message(self.previous).index + 1
        }
    }

    /// Adds the message to a graph, with an id and, for a new author, a key.
    pub fn add(self, graph: &mut Graph, id: Name, key: Name) {
        if self.author as usize > graph.keys.len() {
            graph.keys.push(key);
        }
        let index = self.index(graph);
        let Plan {
            author,
            previous,
            dependencies,
        } = self;
        graph.messages.push(Message {
            id,
            author,
            previous,
            index,
            dependencies,
        });
    }
}

/// The fields of an item that is to be written.
#[derive(Clone)]
pub struct Draft {
    pub mark: u8,
    pub key: Name,
    pub previous: Name,
    pub index: u32,
    pub payload: Vec<u8>,
    pub dependencies: Vec<Name>,
    pub signature: Vec<u8>,
}

impl Draft {
    /// The draft of a planned message, with a payload of at most so many bytes.
    pub fn of_plan(random: &mut Random, graph: &Graph, plan: &Plan, payload: usize) -> Draft {
        let known = graph.keys.get(plan.author as usize - 1);
        let previous = if plan.previous == 0 {
            [0; DIGEST]
        } else {
            graph.message(plan.previous).id
        };
        let payload = random.between(0, payload);
        Draft {
            mark: 1,
            key: known.copied().unwrap_or_else(|| random.name()),
            previous,
            index: plan.index(graph) as u32,
            payload: random.bytes(payload),
            dependencies: plan
                .dependencies
                .iter()
                .map(|&row| graph.message(row).id)
                .collect(),
            signature: random.bytes(64),
        }
    }

    /// A sound draft on a graph.
    pub fn sound(random: &mut Random, graph: &Graph, shape: &Shape) -> Draft {
        let plan = Plan::any(random, graph, shape);
        let payload = random.pick(&[0, 0, 1, 1, 20, 20, 120, 120, 120, 4096]);
        Draft::of_plan(random, graph, &plan, payload)
    }

    /// A sound draft on a graph, its shape chosen at random.
    pub fn any(random: &mut Random, graph: &Graph) -> Draft {
        let shape = Shape::any(random);
        Draft::sound(random, graph, &shape)
    }

    /// The body: all that follows the kind.
    fn body(&self) -> Vec<u8> {
        let mut body = vec![self.mark];
        body.extend(self.key);
        body.extend(self.previous);
        body.extend(self.index.to_le_bytes());
        body.extend((self.payload.len() as u32).to_le_bytes());
        body.extend(&self.payload);
        body.extend((self.dependencies.len() as u16).to_le_bytes());
        body.extend(self.dependencies.iter().flatten());
        body.extend(&self.signature);
        body
    }

    /// The id: SHA-256 over the body without the mark.
    pub fn id(&self) -> Name {
        sha256(&self.body()[1..])
    }

    /// The whole item.
    pub fn item(&self) -> Vec<u8> {
        let body = self.body();
        let mut item = ((body.len() + 2) as u32).to_le_bytes().to_vec();
        item.extend(1_u16.to_le_bytes());
        item.extend(body);
        item
    }
}
