//! JSON-RPC 2.0 over one document, as one would write it by serde_json: `get` and `set`, one
//! request a line, each reply flushed before the next line is read.
use serde_json::{json, Value};
use std::io::{self, BufRead, Write};

/// The code and the message of an error.
type Refused = (i64, &'static str);

/// What the steps lead to.
fn find<'a>(document: &'a mut Value, path: &Value) -> Result<&'a mut Value, Refused> {
    let steps = path.as_array().ok_or((-32602, "Invalid params"))?;
    steps.iter().try_fold(document, |here, step| {
        let found = match (here, step) {
            (Value::Object(members), Value::String(key)) => members.get_mut(key),
            (Value::Array(elements), Value::Number(index)) => {
                index.as_u64().and_then(|index| elements.get_mut(index as usize))
            }
            _ => return Err((-32001, "Type unmatched")),
        };
        found.ok_or((-32000, "Not found"))
    })
}

/// The result of a method.
fn execute(document: &mut Value, method: &str, params: Value) -> Result<Value, Refused> {
    let Value::Array(mut params) = params else {
        return Err((-32602, "Invalid params"));
    };
    match (method, params.len()) {
        ("get", 1) => Ok(find(document, &params[0])?.clone()),
        ("set", 2) => {
            let new = params.swap_remove(1);
            *find(document, &params[0])? = new;
            Ok(Value::Null)
        }
        ("get" | "set", _) => Err((-32602, "Invalid params")),
        _ => Err((-32601, "Method not found")),
    }
}

/// The reply to a request, and none to a notification.
fn reply_to(document: &mut Value, mut request: Value) -> Option<Value> {
    let is_valid = request["jsonrpc"] == "2.0" && request["method"].is_string();
    if !is_valid {
        return Some(json!({"jsonrpc": "2.0", "error": {"code": -32600, "message": "Invalid Request"}, "id": null}));
    }
    let params = request["params"].take();
    let method = request["method"].as_str().unwrap_or_default();
    let result = execute(document, method, params);
    let id = request.get_mut("id")?.take();
    Some(match result {
        Ok(result) => json!({"jsonrpc": "2.0", "result": result, "id": id}),
        Err((code, message)) => {
            json!({"jsonrpc": "2.0", "error": {"code": code, "message": message}, "id": id})
        }
    })
}

fn main() -> io::Result<()> {
    let mut document = Value::Null;
    let mut input = io::stdin().lock();
    let mut output = io::BufWriter::new(io::stdout().lock());
    let mut line = Vec::new();
    while input.read_until(b'\n', &mut line)? > 0 {
        let reply = match serde_json::from_slice(&line) {
            Ok(request) => reply_to(&mut document, request),
            Err(_) => Some(json!({"jsonrpc": "2.0", "error": {"code": -32700, "message": "Parse error"}, "id": null})),
        };
        if let Some(reply) = reply {
            serde_json::to_writer(&mut output, &reply)?;
            output.write_all(b"\n")?;
            output.flush()?;
        }
        line.clear();
    }
    Ok(())
}
