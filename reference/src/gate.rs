//! The gate: clients, connections, and what happens when a piece comes.

use crate::request::{read_request, Read};
use crate::response::{read_response, refusal};
use crate::rules::Server;
use crate::Stop;

pub const CLIENTS: usize = 16;
const MAX_OWNERS: usize = 64;

/// One thing that happens. Clients and servers are counted from 0 here.
#[derive(Clone, Debug, PartialEq, Eq)]
pub enum Happening {
    ToServer(usize, Vec<u8>),
    ToClient(usize, Vec<u8>),
    EndClient(usize),
    DownServer(usize),
}

#[derive(Clone, Copy, Debug, PartialEq, Eq)]
pub enum ClientState {
    Read,
    Waits,
    Ended,
}

#[derive(Clone, Debug)]
pub struct Client {
    pub state: ClientState,
    /// What it sent and no request has taken, from the start of its next request.
    pub unread: Vec<u8>,
}

#[derive(Clone, Debug)]
pub struct Owner {
    pub client: usize,
    pub method: Vec<u8>,
}

#[derive(Clone, Debug)]
pub struct Connection {
    pub up: bool,
    pub owners: Vec<Owner>,
    /// What it said and is not yet a whole response.
    pub kept: Vec<u8>,
}

#[derive(Clone, Debug)]
pub struct Gate {
    pub servers: Vec<Server>,
    pub clients: Vec<Client>,
    pub connections: Vec<Connection>,
}

impl Gate {
    pub fn new(servers: Vec<Server>) -> Gate {
        let connection = Connection { up: true, owners: Vec::new(), kept: Vec::new() };
        let client = Client { state: ClientState::Read, unread: Vec::new() };
        Gate { connections: vec![connection; servers.len()], clients: vec![client; CLIENTS], servers }
    }

    /// A client's piece comes.
    pub fn from_client(&mut self, client: usize, piece: &[u8]) -> Vec<Happening> {
        let mut out = Vec::new();
        if self.clients[client].state != ClientState::Ended {
            self.clients[client].unread.extend(piece);
        }
        self.go_on(client, &mut out);
        out
    }

    /// A client is read request after request, until it waits, more bytes are wanted, or it is ended.
    fn go_on(&mut self, client: usize, out: &mut Vec<Happening>) {
        while self.clients[client].state == ClientState::Read {
            match read_request(&self.clients[client].unread, &self.servers) {
                Read::More => return,
                Read::End { number, .. } => {
                    out.push(Happening::ToClient(client, refusal(number)));
                    out.push(Happening::EndClient(client));
                    self.clients[client].state = ClientState::Ended;
                    self.clients[client].unread.clear();
                }
                Read::Refused { number, taken, .. } => {
                    out.push(Happening::ToClient(client, refusal(number)));
                    self.clients[client].unread.drain(..taken);
                }
                Read::Pass { request, taken } => {
                    self.clients[client].unread.drain(..taken);
                    let connection = &mut self.connections[request.server];
                    if connection.owners.len() >= MAX_OWNERS {
                        out.push(Happening::ToClient(client, refusal(13)));
                    } else if !connection.up {
                        out.push(Happening::ToClient(client, refusal(14)));
                    } else {
                        out.push(Happening::ToServer(request.server, request.text()));
                        connection.owners.push(Owner { client, method: request.method });
                        self.clients[client].state = ClientState::Waits;
                    }
                }
            }
        }
    }

    /// A server's piece comes. Whole responses are given out; then the connection may go down; then the clients that were freed go on.
    pub fn from_server(&mut self, server: usize, piece: &[u8]) -> Vec<Happening> {
        let mut out = Vec::new();
        let mut freed = Vec::new();
        let connection = &mut self.connections[server];
        if piece.is_empty() || !connection.up {
            return out;
        }
        connection.kept.extend(piece);
        while !connection.kept.is_empty() {
            let read = match connection.owners.first() {
                None => Err(Stop::Fault { number: 14, place: 0 }),
                Some(owner) => read_response(&connection.kept, &owner.method),
            };
            match read {
                Err(Stop::More) => break,
                Err(Stop::Fault { .. }) => {
                    connection.up = false;
                    connection.kept.clear();
                    out.push(Happening::DownServer(server));
                    for owner in connection.owners.drain(..) {
                        out.push(Happening::ToClient(owner.client, refusal(14)));
                        freed.push(owner.client);
                    }
                }
                Ok(response) => {
                    connection.kept.drain(..response.taken);
                    let client = connection.owners[0].client;
                    let is_final = response.is_final();
                    out.push(Happening::ToClient(client, response.copy));
                    if is_final {
                        connection.owners.remove(0);
                        freed.push(client);
                    }
                }
            }
        }
        for &client in &freed {
            self.clients[client].state = ClientState::Read;
        }
        for client in freed {
            self.go_on(client, &mut out);
        }
        out
    }
}
