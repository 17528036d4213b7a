//! The links of a host as datagrams on the loopback.

use currentloom::{Message, Plan, Reading, Rules, LONGEST_MESSAGE};
use std::io;
use std::net::{Ipv4Addr, SocketAddr, UdpSocket};
use std::time::Duration;

/// The first rules: demand 3 speaks of them.
pub const RULES: Rules = Rules::First;

/// A datagram is the sender's reading when it sent, 8 bytes, and one message.
const HEAD: usize = 8;

pub struct Lines {
    socket: UdpSocket,
    /// By link of the plan: the address of the other end, if the link is this host's.
    ends: Vec<Option<SocketAddr>>,
}

/// A copy that came in over a link.
pub struct Arrived {
    pub link: u8,
    pub sent_at: Reading,
    pub copy: Message,
}

/// A socket on a port that the system picks.
pub fn bind() -> io::Result<UdpSocket> {
    UdpSocket::bind((Ipv4Addr::LOCALHOST, 0))
}

impl Lines {
    /// The ports of all hosts, in their order.
    pub fn new(socket: UdpSocket, plan: &Plan, own: u8, ports: &[u16]) -> Lines {
        let address = |host: u8| {
            let port = ports.get(usize::from(host))?;
            Some(SocketAddr::from((Ipv4Addr::LOCALHOST, *port)))
        };
        let end = |&(a, b): &(u8, u8)| match own {
            _ if own == a => address(b),
            _ if own == b => address(a),
            _ => None,
        };
        let ends = plan.links.iter().map(end).collect();
        Lines { socket, ends }
    }

    /// A copy that cannot be sent is lost; the plan allows for that.
    pub fn send(&self, link: u8, at: Reading, copy: &Message) {
        let Some(Some(end)) = self.ends.get(usize::from(link)) else {
            return;
        };
        let mut bytes = [0; HEAD + LONGEST_MESSAGE];
        bytes[..HEAD].copy_from_slice(&at.0.to_be_bytes());
        if let Ok(length) = copy.write(RULES, &mut bytes[HEAD..]) {
            let _ = self.socket.send_to(&bytes[..HEAD + length], end);
        }
    }

    /// Waits so long for a copy. "As it was sent, and nothing else arrives": what is not one message
    /// from the other end of an own link is dropped.
    pub fn wait(&self, time: Duration) -> Option<Arrived> {
        // No time at all would mean for ever.
        let time = time.max(Duration::from_micros(1));
        self.socket.set_read_timeout(Some(time)).ok()?;
        let mut bytes = [0; HEAD + LONGEST_MESSAGE + 1];
        let (length, from) = self.socket.recv_from(&mut bytes).ok()?;
        let link = self.ends.iter().position(|end| *end == Some(from))?;
        let (head, message) = bytes[..length].split_first_chunk::<HEAD>()?;
        Some(Arrived {
            link: link as u8,
            sent_at: Reading(u64::from_be_bytes(*head)),
            copy: Message::read(RULES, message).ok()?.message,
        })
    }
}
