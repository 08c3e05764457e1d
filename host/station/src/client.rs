//! What a laboratory's reader asks of the station over HTTP, one request after the other.

use hyper::client::HttpConnector;
use hyper::{header, Body, HeaderMap, Method, Request};
use serde::de::DeserializeOwned;
use serde::Deserialize;
use serde_json::Value;
use std::cell::Cell;
use std::error::Error;
use std::fmt;
use std::net::SocketAddr;
use std::time::{Duration, Instant};
use tokio::runtime::{Builder, Runtime};
use tokio::time;

/// A request that takes longer has failed.
const PATIENCE: Duration = Duration::from_secs(5);

/// Behind so long a silence the station may have closed the connection, and it takes a moment to see that: nothing
/// here runs between two requests.
const SILENCE: Duration = Duration::from_millis(50);
const MOMENT: Duration = Duration::from_millis(1);

/// Why a request came to nothing.
#[derive(Debug)]
pub struct Trouble(String);

impl fmt::Display for Trouble {
    fn fmt(&self, f: &mut fmt::Formatter) -> fmt::Result {
        f.write_str(&self.0)
    }
}

impl Error for Trouble {}

/// What the station said.
#[derive(Debug)]
pub struct Reply {
    pub status: u16,
    headers: HeaderMap,
    pub body: Vec<u8>,
}

impl Reply {
    pub fn header(&self, name: &str) -> Option<&str> {
        self.headers.get(name)?.to_str().ok()
    }

    /// The body, or null where it is no JSON.
    pub fn json(&self) -> Value {
        serde_json::from_slice(&self.body).unwrap_or(Value::Null)
    }

    /// The body as what it is expected to be, where the status is the one that is.
    fn expect<T: DeserializeOwned>(&self, status: u16) -> Result<T, Trouble> {
        if self.status != status {
            return Err(self.trouble());
        }
        serde_json::from_slice(&self.body).map_err(|error| Trouble(error.to_string()))
    }

    fn trouble(&self) -> Trouble {
        let words = String::from_utf8_lossy(&self.body);
        Trouble(format!("{}: {}", self.status, words))
    }
}

/// A message that waits.
#[derive(Clone, PartialEq, Eq, Debug, Deserialize)]
pub struct Waiting {
    pub line: u8,
    pub serial: u16,
    pub bytes: usize,
    pub stored: String,
}

/// An order, and what became of it.
#[derive(Clone, PartialEq, Eq, Debug, Deserialize)]
pub struct Order {
    pub order: u64,
    pub line: u8,
    pub state: String,
    pub starts: u32,
    pub placed: String,
    pub changed: String,
    pub words: Option<String>,
}

#[derive(Deserialize)]
struct Taken {
    taken: bool,
}

#[derive(Deserialize)]
struct Placed {
    order: u64,
}

#[derive(Deserialize)]
struct Messages {
    messages: Vec<Waiting>,
}

#[derive(Deserialize)]
struct Orders {
    orders: Vec<Order>,
}

/// A reader with its token. Its connection is kept from one request to the next.
pub struct Client {
    runtime: Runtime,
    http: hyper::Client<HttpConnector>,
    address: SocketAddr,
    token: String,
    patience: Duration,
    /// When the last request was over.
    asked: Cell<Instant>,
}

impl Client {
    /// Without a token where it is empty.
    ///
    /// # Panics
    ///
    /// If the system has no means for it.
    pub fn new(address: SocketAddr, token: &str) -> Client {
        let runtime = Builder::new_current_thread().enable_all().build();
        let mut connector = HttpConnector::new();
        connector.set_nodelay(true);
        Client {
            runtime: runtime.expect("a runtime of one thread"),
            http: hyper::Client::builder().build(connector),
            address,
            token: token.to_string(),
            patience: PATIENCE,
            asked: Cell::new(Instant::now()),
        }
    }

    pub fn get(&self, path: &str) -> Result<Reply, Trouble> {
        self.ask(Method::GET, path, Vec::new())
    }

    pub fn delete(&self, path: &str) -> Result<Reply, Trouble> {
        self.ask(Method::DELETE, path, Vec::new())
    }

    pub fn post(&self, path: &str, body: &[u8]) -> Result<Reply, Trouble> {
        self.ask(Method::POST, path, body.to_vec())
    }

    /// The oldest message that waits, with its line and serial.
    pub fn message(&self) -> Result<Option<(u8, u16, Vec<u8>)>, Trouble> {
        let reply = self.get("/message")?;
        match reply.status {
            204 => return Ok(None),
            200 => {}
            _ => return Err(reply.trouble()),
        }
        let number = |name| reply.header(name).and_then(|value| value.parse().ok());
        match (number("message-line"), number("message-serial")) {
            (Some(line), Some(serial)) if line < 8 => Ok(Some((line as u8, serial, reply.body))),
            _ => Err(Trouble("a message without line or serial".to_string())),
        }
    }

    /// The message is taken; false where it was before.
    pub fn confirm(&self, line: u8, serial: u16) -> Result<bool, Trouble> {
        let reply = self.delete(&format!("/message/{}/{}", line, serial))?;
        reply.expect(200).map(|taken: Taken| taken.taken)
    }

    pub fn waiting(&self) -> Result<Vec<Waiting>, Trouble> {
        let reply = self.get("/waiting")?;
        reply.expect(200).map(|list: Messages| list.messages)
    }

    /// Places an order; its number.
    pub fn order(&self, line: u8, text: &[u8]) -> Result<u64, Trouble> {
        let reply = self.post(&format!("/orders/{}", line), text)?;
        reply.expect(202).map(|placed: Placed| placed.order)
    }

    pub fn orders(&self) -> Result<Vec<Order>, Trouble> {
        let reply = self.get("/orders")?;
        reply.expect(200).map(|list: Orders| list.orders)
    }

    fn ask(&self, method: Method, path: &str, body: Vec<u8>) -> Result<Reply, Trouble> {
        let what = format!("{} {}", method, path);
        let asked = self.runtime.block_on(async {
            if self.asked.get().elapsed() > SILENCE {
                time::sleep(MOMENT).await;
            }
            time::timeout(self.patience, self.exchange(method, path, body)).await
        });
        self.asked.set(Instant::now());
        match asked {
            Ok(reply) => reply.map_err(|error| Trouble(format!("{}: {}", what, error))),
            Err(_) => Err(Trouble(format!("{}: no reply in time", what))),
        }
    }

    async fn exchange(
        &self,
        method: Method,
        path: &str,
        body: Vec<u8>,
    ) -> Result<Reply, Box<dyn Error>> {
        let mut request = Request::builder()
            .method(method)
            .uri(format!("http://{}{}", self.address, path));
        if !self.token.is_empty() {
            let bearer = format!("Bearer {}", self.token);
            request = request.header(header::AUTHORIZATION, bearer);
        }
        let reply = self.http.request(request.body(Body::from(body))?).await?;
        let (parts, body) = reply.into_parts();
        Ok(Reply {
            status: parts.status.as_u16(),
            headers: parts.headers,
            body: hyper::body::to_bytes(body).await?.to_vec(),
        })
    }
}

#[cfg(test)]
mod tests {
    use super::*;
    use std::io::{Read, Write};
    use std::net::TcpListener;
    use std::thread::{self, JoinHandle};

    /// A server that gives these replies, one for each request, and so many on a connection. The requests, at its
    /// end.
    fn server(replies: Vec<String>, each: usize) -> (SocketAddr, JoinHandle<Vec<String>>) {
        let listener = TcpListener::bind("127.0.0.1:0").expect("a port");
        let address = listener.local_addr().expect("its address");
        let thread = thread::spawn(move || {
            let mut requests = Vec::new();
            for replies in replies.chunks(each) {
                let (mut stream, _) = listener.accept().expect("a connection");
                for reply in replies {
                    let mut bytes = [0; 2_000];
                    let count = stream.read(&mut bytes).expect("a request");
                    requests.push(String::from_utf8_lossy(&bytes[..count]).to_string());
                    stream.write_all(reply.as_bytes()).expect("room");
                }
                // Closed while nobody asks.
                thread::sleep(SILENCE / 2);
            }
            requests
        });
        (address, thread)
    }

    fn reply(status: &str, headers: &str, body: &str) -> String {
        let length = body.len();
        let head = format!("HTTP/1.1 {}\r\n{}", status, headers);
        format!("{}content-length: {}\r\n\r\n{}", head, length, body)
    }

    /// What the requests ask for.
    fn asked(requests: &[String]) -> Vec<&str> {
        let asked = |request: &String| request.find(" HTTP").expect("a request");
        requests.iter().map(|text| &text[..asked(text)]).collect()
    }

    #[test]
    fn messages_over_one_connection() {
        let headers = "message-line: 3\r\nmessage-serial: 7\r\n";
        let waiting = r#"{"messages":[{"line":3,"serial":7,"bytes":12,"stored":"then"}]}"#;
        let replies = vec![
            reply("200 OK", headers, "H|\\^&\rL|1|N\r"),
            reply("200 OK", "", r#"{"taken":true}"#),
            "HTTP/1.1 204 No Content\r\n\r\n".to_string(),
            reply("200 OK", "", waiting),
            reply("401 Unauthorized", "", r#"{"error":"no such token"}"#),
        ];
        let (address, server) = server(replies, 5);
        let client = Client::new(address, "sesame");
        let message = client.message().expect("a reply");
        assert_eq!(message, Some((3, 7, b"H|\\^&\rL|1|N\r".to_vec())));
        assert!(client.confirm(3, 7).expect("a reply"));
        assert_eq!(client.message().expect("a reply"), None);
        let waiting = &client.waiting().expect("a reply")[0];
        assert_eq!((waiting.line, waiting.serial, waiting.bytes), (3, 7, 12));
        let trouble = client.confirm(3, 7).expect_err("no token");
        assert_eq!(trouble.to_string(), r#"401: {"error":"no such token"}"#);

        let requests = server.join().expect("the server's end");
        let confirmed = "DELETE /message/3/7";
        let (next, list) = ("GET /message", "GET /waiting");
        assert_eq!(asked(&requests), [next, confirmed, next, list, confirmed]);
        assert!(requests[0].contains("authorization: Bearer sesame\r\n"));
    }

    #[test]
    fn orders_over_one_connection() {
        let orders = r#"{"orders":[{"order":17,"line":3,"state":"sent","starts":1,
            "placed":"then","changed":"now","words":"acknowledged"}]}"#;
        let replies = vec![
            reply("202 Accepted", "", r#"{"order":17}"#),
            reply("200 OK", "", orders),
        ];
        let (address, server) = server(replies, 2);
        let client = Client::new(address, "sesame");
        let text = b"H|\\^&\rL|1|N\r";
        assert_eq!(client.order(3, text).expect("a reply"), 17);
        let order = &client.orders().expect("a reply")[0];
        assert_eq!((order.order, order.line), (17, 3));
        assert_eq!((&*order.state, order.starts), ("sent", 1));

        let requests = server.join().expect("the server's end");
        assert_eq!(asked(&requests), ["POST /orders/3", "GET /orders"]);
        assert!(requests[0].as_bytes().ends_with(b"\r\n\r\nH|\\^&\rL|1|N\r"));
    }

    #[test]
    fn a_reply_with_all_that_it_has() {
        let reply = reply("409 Conflict", "message-line: 3\r\n", r#"{"error":"no"}"#);
        let (address, server) = server(vec![reply], 1);
        let reply = Client::new(address, "").get("/board").expect("a reply");
        assert_eq!(
            (reply.status, reply.header("message-line")),
            (409, Some("3"))
        );
        assert_eq!(reply.json()["error"], "no");
        let requests = server.join().expect("the server's end");
        assert!(!requests[0].contains("authorization"));
    }

    #[test]
    fn a_connection_that_is_closed_between_two_requests() {
        let (address, server) = server(vec![reply("200 OK", "", "{}"); 3], 1);
        let client = Client::new(address, "sesame");
        for _ in 0..3 {
            assert_eq!(client.get("/board").expect("a reply").status, 200);
            thread::sleep(2 * SILENCE);
        }
        assert_eq!(server.join().expect("the server's end").len(), 3);
    }

    #[test]
    fn nobody_there_and_no_reply_in_time() {
        let listener = TcpListener::bind("127.0.0.1:0").expect("a port");
        let address = listener.local_addr().expect("its address");
        let mut client = Client::new(address, "sesame");
        client.patience = Duration::from_millis(50);
        let trouble = client.get("/board").expect_err("a silent server");
        assert_eq!(trouble.to_string(), "GET /board: no reply in time");
        drop(listener);
        assert!(client.get("/board").is_err());
    }
}
