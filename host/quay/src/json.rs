//! Answers as JSON.

use quayladle::{Reply, Verdict};
use serde_json::{json, Value};

pub fn reply_value(Reply { number, line, count }: Reply) -> Value {
    json!({ "number": number, "line": line, "count": count })
}

pub fn verdict_value(Verdict { reply: Reply { number, line, count }, which }: Verdict) -> Value {
    json!({ "number": number, "line": line, "count": count, "which": which })
}
