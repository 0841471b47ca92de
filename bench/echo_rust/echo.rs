//! A bare server and a bare client for connections of this machine. `serve SIZE FILE` prints its port, and then sends the bytes
//! of the file for each request of so many bytes, whatever it says. `call ADDRESS COUNT REQUEST SIZE` sends the bytes of the
//! file REQUEST so often, each time when the last one's reply of so many bytes has come, and prints the seconds that this took.

use std::io::{self, Read, Write};
use std::net::{TcpListener, TcpStream};
use std::time::Instant;
use std::{env, fs};

fn serve(size: usize, reply: &[u8]) -> io::Result<()> {
    let listener = TcpListener::bind("127.0.0.1:0")?;
    println!("{}", listener.local_addr()?.port());
    let mut request = vec![0; size];
    for peer in listener.incoming() {
        let mut peer = peer?;
        peer.set_nodelay(true)?;
        while peer.read_exact(&mut request).is_ok() {
            peer.write_all(reply)?;
        }
    }
    Ok(())
}

fn call(address: &str, count: u32, request: &[u8], size: usize) -> io::Result<f64> {
    let mut peer = TcpStream::connect(address)?;
    peer.set_nodelay(true)?;
    let mut reply = vec![0; size];
    let start = Instant::now();
    for _ in 0..count {
        peer.write_all(request)?;
        peer.read_exact(&mut reply)?;
    }
    Ok(start.elapsed().as_secs_f64())
}

fn main() -> Result<(), Box<dyn std::error::Error>> {
    let words: Vec<String> = env::args().skip(1).collect();
    let words: Vec<&str> = words.iter().map(String::as_str).collect();
    match words.as_slice() {
        ["serve", size, file] => serve(size.parse()?, &fs::read(file)?)?,
        ["call", address, count, file, size] => {
            println!("{}", call(address, count.parse()?, &fs::read(file)?, size.parse()?)?);
        }
        _ => return Err("usage: echo serve SIZE FILE, or echo call ADDRESS COUNT REQUEST SIZE".into()),
    }
    Ok(())
}
