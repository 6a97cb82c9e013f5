//! The second opinion.
//!
//! A plain program that keeps the whole house in memory and says whether each answer is allowed.
//! It was written from docs/MEANING.md alone, without a look at the house itself,
//! so that a misreading in one of the two shows up as a difference.
//!
//! | module | what it holds | section of docs/MEANING.md |
//! |---|---|---|
//! | `meaning` | what there is, and the fourteen calls | 1 to 4, 7 |
//! | `rules` | what a telling of the time does | 5 |
//! | `weight` | weight and full | 6 |
//! | `lines` | calls and answers as bytes | 8 |
//! | `built` | which calls are built; the order of tests for a line | 3, 8 |
//! | `judge` | a script held against what was printed; cuts and losses | 9 |
//!
//! The others: `script` (the language, docs/REHEARSE.md), `words` (calls in words, for tests and messages),
//! `generate` (scripts by seed), `exhaustive` (every asking as the place of a cut), `program` (running `rehearse`),
//! `shrink` (the smallest failing script), `hunt` (many scripts), `play` (a test double of `rehearse`),
//! `real` (`house` on real files), `pipes` (talking to a program), `scratch` (temporary folders).

pub mod built;
pub mod dice;
pub mod drives;
pub mod exhaustive;
pub mod generate;
pub mod hunt;
pub mod judge;
pub mod lines;
pub mod meaning;
pub mod pipes;
pub mod play;
pub mod program;
pub mod real;
pub mod rules;
pub mod scratch;
pub mod script;
pub mod shrink;
pub mod weight;
pub mod words;
