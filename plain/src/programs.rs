//! What the programs of this crate do, and what the library for C does from bytes to bytes.
pub use crate::made::witgraph::main as witgraph;
pub use crate::made::witgraph_calls as calls;
pub use crate::made::witgraph_dot::main as witgraph_dot;
pub use crate::made::witgraph_json::main as witgraph_json;
