//! What the boards are given to do: a host tool that fills the memories and reads them, or sums flash.

/// What is written and read, 256 bytes at a time: all of flash, then all of SRAM, and again.
const BLOCK: usize = 256;
const FLASH: u32 = 0x0800_0000;
const FLASH_BYTES: usize = 32 * 1024;
const SRAM: u32 = 0x2000_0000;
const SRAM_BYTES: usize = 8 * 1024;

/// The data bytes of a CAN frame.
const CLASSIC: usize = 8;

/// One thing that a host says: bytes on UART, or a frame on CAN.
pub enum Said {
    Bytes(Vec<u8>),
    Frame(u8, Vec<u8>),
}

impl Said {
    /// The line by which `desk` is told.
    pub fn line(&self) -> String {
        let (mut line, bytes) = match self {
            Said::Bytes(bytes) => (String::from("U"), bytes),
            Said::Frame(id, bytes) => (format!("C {id:03X}"), bytes),
        };
        for byte in bytes {
            line.push_str(&format!(" {byte:02X}"));
        }
        line.push('\n');
        line
    }
}

/// A kind of work.
#[derive(Clone, Copy)]
pub enum Workload {
    Uart,
    Can,
    Crc,
}

impl Workload {
    /// Every kind.
    pub const ALL: [Workload; 3] = [Workload::Uart, Workload::Can, Workload::Crc];

    /// What a row of a table calls it.
    pub fn name(self) -> &'static str {
        match self {
            Workload::Uart => "UART writes and reads",
            Workload::Can => "CAN writes and reads",
            Workload::Crc => "CRC over whole flash",
        }
    }

    /// What connects.
    pub fn connect(self) -> Said {
        match self {
            Workload::Can => Said::Frame(0x79, vec![]),
            Workload::Uart | Workload::Crc => Said::Bytes(vec![0x7F]),
        }
    }

    /// What is said in one round.
    pub fn round(self, round: usize) -> Vec<Said> {
        match self {
            Workload::Uart => uart(round),
            Workload::Can => can(round),
            Workload::Crc => vec![Said::Bytes(vec![0xAC, 0x53, 0x08, 0, 0, 0, 0x08, 0x00, 0x1F, 0xE0])],
        }
    }

    /// How much work a round is, in bytes: the characters of its lines, or the flash that is summed.
    pub fn work(self, said: &[Said]) -> usize {
        match self {
            Workload::Crc => FLASH_BYTES,
            Workload::Uart | Workload::Can => said.iter().map(|said| said.line().len()).sum(),
        }
    }
}

/// The address of a round's block.
fn address(round: usize) -> [u8; 4] {
    let at = round * BLOCK % (FLASH_BYTES + SRAM_BYTES);
    let address = if at < FLASH_BYTES {
        FLASH + at as u32
    } else {
        SRAM + (at - FLASH_BYTES) as u32
    };
    address.to_be_bytes()
}

/// The bytes of a round's block: in flash a bit that has fallen stays so, in SRAM each round shows.
fn data(round: usize) -> Vec<u8> {
    (0..BLOCK).map(|i| (i * 7 + round) as u8).collect()
}

/// Bytes and the XOR of them.
fn checked(mut bytes: Vec<u8>) -> Vec<u8> {
    bytes.push(bytes.iter().fold(0, |sum, byte| sum ^ byte));
    bytes
}

/// A write of a block and a read of it, over UART.
fn uart(round: usize) -> Vec<Said> {
    let commands = [Commands::Writes, Commands::Reads];
    commands.map(|commands| Said::Bytes(commands.command(round))).into()
}

/// UART commands of one kind, a block of 256 bytes each.
#[derive(Clone, Copy)]
pub enum Commands {
    Writes,
    Reads,
}

impl Commands {
    /// Both kinds.
    pub const ALL: [Commands; 2] = [Commands::Writes, Commands::Reads];

    /// What a row of a table calls them.
    pub fn name(self) -> &'static str {
        match self {
            Commands::Writes => "writes of 256 bytes",
            Commands::Reads => "reads of 256 bytes",
        }
    }

    /// The command of a round.
    fn command(self, round: usize) -> Vec<u8> {
        let at = checked(address(round).to_vec());
        match self {
            Commands::Writes => [vec![0x31, 0xCE], at, checked([vec![0xFF], data(round)].concat())].concat(),
            Commands::Reads => [vec![0x11, 0xEE], at, vec![0xFF, 0x00]].concat(),
        }
    }

    /// The bytes that a board answers to a command that it obeys: three ACKs, and what is read.
    fn answered(self) -> usize {
        match self {
            Commands::Writes => 3,
            Commands::Reads => 3 + BLOCK,
        }
    }

    /// A talk that connects and then sends commands, until so many bytes have gone there and back, and how many they are.
    pub fn talk(self, bytes: usize) -> (Vec<u8>, usize) {
        let mut talk = vec![0x7F];
        let mut answered = 1;
        for round in 0.. {
            if bytes <= talk.len() + answered {
                break;
            }
            talk.extend(self.command(round));
            answered += self.answered();
        }
        let both = talk.len() + answered;
        (talk, both)
    }
}

/// A write of a block and a read of it, over CAN.
fn can(round: usize) -> Vec<Said> {
    let what = [address(round).to_vec(), vec![0xFF]].concat();
    let mut said = vec![Said::Frame(0x31, what.clone())];
    said.extend(data(round).chunks(CLASSIC).map(|part| Said::Frame(0x31, part.to_vec())));
    said.push(Said::Frame(0x11, what));
    said
}
