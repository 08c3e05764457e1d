//! The station over HTTP: the board for everybody, messages and orders for each laboratory's reader.
//!
//! Every connection has a task of its own, a time within which it has to be done, and a limit to what it may send:
//! a reader that is slow or broken costs nobody else anything.

use crate::board::Published;
use crate::keeper::Event;
use crate::log::Log;
use crate::requests::{own_line, Reply, Request};
use crate::settings::Settings;
use constant_time_eq::constant_time_eq;
use hyper::body::HttpBody;
use hyper::header::{AUTHORIZATION, CACHE_CONTROL, CONTENT_TYPE};
use hyper::server::conn::Http as Protocol;
use hyper::service::service_fn;
use hyper::{Body, Method, Response};
use ngachodui::TEXT_LIMIT;
use std::convert::Infallible;
use std::sync::mpsc::Sender;
use std::sync::{Arc, Mutex};
use std::time::Duration;
use tokio::io::AsyncWriteExt;
use tokio::net::{TcpListener, TcpStream};
use tokio::sync::{oneshot, watch, Semaphore};
use tokio::time::{sleep, timeout};

/// At most so many connections at a time, so many bytes of a request's head, and of a body that is too large so
/// many are read before it is refused, so that who sends it hears the refusal.
const MOST_CONNECTIONS: usize = 512;
const MOST_HEAD: usize = 16 * 1_024;
const MOST_DISCARDED: usize = 1_024 * 1_024;

/// So many requests of a laboratory are at the keeper at a time: it waits for the disk for some of them, and the lines
/// of all wait with it.
const MOST_ASKED: usize = 4;

/// How long a request's head may take, how long its body, its turn and the keeper each, and all that follows the head.
const HEAD_TIME: Duration = Duration::from_secs(5);
const BODY_TIME: Duration = Duration::from_secs(5);
const KEEPER_TIME: Duration = Duration::from_secs(10);
const REQUEST_TIME: Duration = Duration::from_secs(30);

const PAGE: &str = include_str!("../board/board.html");

/// The page loads nothing, and talks to nobody but the station.
const PAGE_POLICY: &str = "default-src 'none'; style-src 'unsafe-inline'; script-src 'unsafe-inline'; connect-src 'self'; img-src data:; base-uri 'none'; form-action 'none'; frame-ancestors 'none'";

/// What every connection needs.
pub struct Http {
    settings: Arc<Settings>,
    published: Arc<Published>,
    keeper: Mutex<Sender<Event>>,
    /// For each laboratory, and the operator behind them, who may ask at a time.
    turns: Vec<Arc<Semaphore>>,
    log: Log,
}

impl Http {
    pub fn new(
        settings: Arc<Settings>,
        published: Arc<Published>,
        keeper: Sender<Event>,
        log: Log,
    ) -> Http {
        let askers = settings.laboratories.len() + 1;
        Http {
            settings,
            published,
            keeper: Mutex::new(keeper),
            turns: (0..askers)
                .map(|_| Arc::new(Semaphore::new(MOST_ASKED)))
                .collect(),
            log,
        }
    }

    /// Serves whoever connects, as long as the station runs.
    pub async fn serve(self: Arc<Http>, listener: TcpListener) {
        let free = Arc::new(Semaphore::new(MOST_CONNECTIONS));
        loop {
            match listener.accept().await {
                Err(error) => {
                    self.log.say(format_args!("http: {}", error));
                    sleep(Duration::from_millis(100)).await;
                }
                Ok((stream, _)) => match free.clone().try_acquire_owned() {
                    Err(_) => {
                        let busy = Reply::error(503, "too many connections");
                        tokio::spawn(refuse(stream, busy));
                    }
                    Ok(permit) => {
                        let http = self.clone();
                        tokio::spawn(async move {
                            http.converse(stream).await;
                            drop(permit);
                        });
                    }
                },
            }
        }
    }

    /// One connection, with as many requests as it makes. From each reply on the next head has its time to come.
    async fn converse(self: Arc<Http>, stream: TcpStream) {
        let _ = stream.set_nodelay(true);
        let (busy, mut is_busy) = watch::channel(false);
        let busy = Arc::new(busy);
        let service = service_fn(move |request| {
            let (http, busy) = (self.clone(), busy.clone());
            async move {
                let _ = busy.send(true);
                let response = http.answer(request).await;
                let _ = busy.send(false);
                Ok::<_, Infallible>(response)
            }
        });
        let mut connection = Protocol::new()
            .http1_only(true)
            .max_buf_size(MOST_HEAD)
            .serve_connection(stream, service);
        loop {
            let limit = match *is_busy.borrow_and_update() {
                true => REQUEST_TIME,
                false => HEAD_TIME,
            };
            tokio::select! {
                _ = &mut connection => return,
                _ = is_busy.changed() => {}
                _ = sleep(limit) => break,
            }
        }
        let left = connection.into_parts();
        // Who has sent nothing since the last reply only kept the connection, and knows that it ends.
        if !left.read_buf.is_empty() {
            refuse(left.io, Reply::error(408, "the request took too long")).await;
        }
    }

    async fn answer(&self, request: hyper::Request<Body>) -> Response<Body> {
        let path = request.uri().path().to_string();
        let parts: Vec<&str> = path.trim_start_matches('/').split('/').collect();
        let pages = || self.published.get();
        let allowed: &[Method] = match parts[0] {
            "" | "board" | "metrics" | "waiting" | "refused" => &[Method::GET],
            "message" if parts.len() == 1 => &[Method::GET],
            "message" => &[Method::DELETE],
            "orders" if parts.len() == 1 => &[Method::GET],
            "orders" => &[Method::GET, Method::POST, Method::DELETE],
            "archive" => &[Method::POST],
            _ => return response(Reply::error(404, "no such page")),
        };
        if !allowed.contains(request.method()) {
            return not_allowed(allowed);
        }
        match parts[..] {
            [""] => page(),
            ["board"] => text("application/json", pages().board.clone()),
            ["metrics"] => text("text/plain; version=0.0.4", pages().metrics.clone()),
            _ => match self.request(request, &parts).await {
                Ok((asker, request)) => response(self.ask(asker, request).await),
                Err(refused) => response(refused),
            },
        }
    }

    /// What is asked of the keeper, and by whom, if they may.
    async fn request(
        &self,
        request: hyper::Request<Body>,
        parts: &[&str],
    ) -> Result<(usize, Request), Reply> {
        let token = bearer(&request).ok_or_else(|| no_token("a token is needed"))?;
        if let ["archive"] = parts {
            let operator = self.settings.operator.as_ref();
            return match operator.map(|own| constant_time_eq(own.as_bytes(), &token)) {
                Some(true) => Ok((self.settings.laboratories.len(), Request::Archive)),
                _ => Err(no_token("not the operator's token")),
            };
        }
        match self.laboratory(&token) {
            Some(laboratory) => {
                let request = self.readers_request(laboratory, request, parts).await?;
                Ok((laboratory, request))
            }
            None => Err(no_token("no laboratory has this token")),
        }
    }

    /// What a laboratory's reader asks; it concerns its own lines.
    async fn readers_request(
        &self,
        laboratory: usize,
        request: hyper::Request<Body>,
        parts: &[&str],
    ) -> Result<Request, Reply> {
        let lines = self.settings.lines_of(laboratory);
        let own = |text: &str| {
            own_line(&self.settings, laboratory, text)
                .ok_or_else(|| Reply::error(404, "not a line of this laboratory"))
        };
        let (head, sent) = request.into_parts();
        if let (&Method::POST, ["orders", line]) = (&head.method, parts) {
            let line = own(line)?;
            let text = body(sent).await?;
            return Ok(Request::Place { line, text });
        }
        Ok(match (&head.method, parts) {
            (_, ["message"]) => Request::Message(match head.uri.query() {
                None => lines,
                Some(query) => vec![own(asked_line(query)?)?],
            }),
            (_, ["message", line, serial]) => Request::Confirm {
                line: own(line)?,
                serial: number(serial)?,
            },
            (_, ["waiting"]) => Request::Waiting(lines),
            (_, ["refused"]) => Request::Refused(lines),
            (_, ["orders"]) => Request::Orders(lines),
            (&Method::DELETE, ["orders", order]) => Request::Cancel {
                lines,
                number: number(order)?,
            },
            (_, ["orders", order]) => Request::Order {
                lines,
                number: number(order)?,
            },
            _ => return Err(Reply::error(404, "no such page")),
        })
    }

    /// The laboratory that has this token. Each is compared, in the same time whatever it is.
    fn laboratory(&self, token: &[u8]) -> Option<usize> {
        let mut found = None;
        for (k, laboratory) in self.settings.laboratories.iter().enumerate() {
            if constant_time_eq(laboratory.token.as_bytes(), token) {
                found = Some(k);
            }
        }
        found
    }

    /// Hands an event to the keeper. False: there is none any more.
    fn hand_on(&self, event: Event) -> bool {
        let keeper = self.keeper.lock();
        keeper.map_or(false, |keeper| keeper.send(event).is_ok())
    }

    async fn ask(&self, asker: usize, request: Request) -> Reply {
        let turn = self.turns[asker].clone().acquire_owned();
        let turn = match timeout(KEEPER_TIME, turn).await {
            Ok(turn) => turn.ok(),
            Err(_) => return Reply::error(503, "this laboratory asks too much at a time"),
        };
        let (reply, answered) = oneshot::channel();
        let event = Event::Request {
            request,
            reply,
            turn,
        };
        if !self.hand_on(event) {
            return Reply::error(503, "the station stops");
        }
        match timeout(KEEPER_TIME, answered).await {
            Ok(Ok(reply)) => reply,
            Ok(Err(_)) => Reply::error(503, "the station stops"),
            Err(_) => Reply::error(504, "no answer in time; what was asked may still be done"),
        }
    }
}

fn bearer(request: &hyper::Request<Body>) -> Option<Vec<u8>> {
    let value = request.headers().get(AUTHORIZATION)?.as_bytes();
    Some(value.strip_prefix(b"Bearer ")?.to_vec())
}

fn no_token(why: &str) -> Reply {
    let mut reply = Reply::error(401, why);
    let scheme = "Bearer".to_string();
    reply.headers.push(("www-authenticate", scheme));
    reply
}

fn number<T: std::str::FromStr>(text: &str) -> Result<T, Reply> {
    let told = |_| Reply::error(404, "not a number that can be meant");
    text.parse().map_err(told)
}

/// `line=3`, the one thing that a query may say.
fn asked_line(query: &str) -> Result<&str, Reply> {
    let refused = || Reply::error(400, "a query may only say line=NUMBER");
    query.strip_prefix("line=").ok_or_else(refused)
}

/// A text to send. One that is too large is refused, when it has come.
async fn body(mut body: Body) -> Result<Vec<u8>, Reply> {
    let mut bytes = Vec::new();
    let mut length = 0;
    let read = async {
        while let Some(piece) = body.data().await {
            let piece = piece.map_err(|_| Reply::error(400, "the request broke off"))?;
            length += piece.len();
            if length <= TEXT_LIMIT {
                bytes.extend_from_slice(&piece);
            } else if length > MOST_DISCARDED {
                break;
            }
        }
        Ok(())
    };
    match timeout(BODY_TIME, read).await {
        Err(_) => Err(Reply::error(408, "the request's body took too long")),
        Ok(Err(refused)) => Err(refused),
        Ok(Ok(())) if length > TEXT_LIMIT => Err(Reply::error(
            413,
            &format!("a message has at most {} bytes", TEXT_LIMIT),
        )),
        Ok(Ok(())) => Ok(bytes),
    }
}

fn response(reply: Reply) -> Response<Body> {
    let mut builder = Response::builder()
        .status(reply.status)
        .header(CACHE_CONTROL, "no-store");
    if !reply.kind.is_empty() {
        builder = builder.header(CONTENT_TYPE, reply.kind);
    }
    for (name, value) in reply.headers {
        builder = builder.header(name, value);
    }
    builder
        .body(Body::from(reply.body))
        .expect("headers of plain characters")
}

fn text(kind: &'static str, body: String) -> Response<Body> {
    response(Reply {
        status: 200,
        kind,
        headers: Vec::new(),
        body: body.into_bytes(),
    })
}

fn page() -> Response<Body> {
    response(Reply {
        status: 200,
        kind: "text/html; charset=utf-8",
        headers: vec![("content-security-policy", PAGE_POLICY.to_string())],
        body: PAGE.as_bytes().to_vec(),
    })
}

fn not_allowed(allowed: &[Method]) -> Response<Body> {
    let names: Vec<&str> = allowed.iter().map(Method::as_str).collect();
    let mut reply = Reply::error(405, "not here");
    reply.headers.push(("allow", names.join(", ")));
    response(reply)
}

/// A refusal to who is not served by the protocol any more, or not yet.
async fn refuse(mut stream: TcpStream, reply: Reply) {
    let reason = hyper::StatusCode::from_u16(reply.status)
        .ok()
        .and_then(|status| status.canonical_reason())
        .unwrap_or("");
    let head = format!(
        "HTTP/1.1 {} {}\r\ncontent-type: {}\r\ncontent-length: {}\r\nconnection: close\r\n\r\n",
        reply.status,
        reason,
        reply.kind,
        reply.body.len()
    );
    let all = [head.as_bytes(), &reply.body].concat();
    let _ = timeout(HEAD_TIME, stream.write_all(&all)).await;
    let _ = stream.shutdown().await;
}

#[cfg(test)]
mod tests {
    use super::*;
    use crate::settings::{Laboratory, OrderSettings};
    use std::sync::mpsc::channel;
    use tokio::runtime::Builder;

    fn settings() -> Arc<Settings> {
        let laboratory = |name: &str| Laboratory {
            name: name.to_string(),
            token: format!("token of {}", name),
        };
        Arc::new(Settings {
            folder: "state".into(),
            listen: "127.0.0.1:0".to_string(),
            archive_at: None,
            operator: None,
            laboratories: vec![laboratory("north"), laboratory("south")],
            lines: Vec::new(),
            orders: OrderSettings {
                silence: Duration::ZERO,
                again: Duration::ZERO,
                starts: 1,
            },
        })
    }

    /// Also of a laboratory whose readers do not wait for the reply; and the other's are not held up.
    #[test]
    fn so_many_requests_of_a_laboratory_are_at_the_keeper() {
        let (events, coming) = channel();
        let log = Log::with(0).0;
        let http = Http::new(settings(), Arc::new(Published::new()), events, log);
        let http = Arc::new(http);
        let runtime = Builder::new_multi_thread().enable_all().build();
        let runtime = runtime.expect("threads");
        let ask = |laboratory| {
            let http = http.clone();
            runtime.spawn(async move { http.ask(laboratory, Request::Waiting(vec![])).await })
        };
        let next = |wait| coming.recv_timeout(Duration::from_millis(wait)).ok();
        let asked: Vec<_> = (0..10).map(|_| ask(0)).collect();
        let mut there: Vec<Event> = (0..MOST_ASKED).filter_map(|_| next(5_000)).collect();
        assert_eq!(there.len(), MOST_ASKED);
        assert!(next(100).is_none());
        let _other = ask(1);
        assert!(next(5_000).is_some());
        asked.iter().for_each(|task| task.abort());
        let _again = ask(0);
        assert!(next(100).is_none());
        drop(there.pop());
        assert!(next(5_000).is_some());
        runtime.shutdown_background();
    }
}
