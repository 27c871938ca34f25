//! An IPv4 header and the TCP header behind it, read from bytes and written again.

use worghulen::prelude::*;

#[derive(Debug, PartialEq)]
struct Ipv4 {
    words: u8,
    service: u8,
    congestion: u8,
    length: u16,
    identification: u16,
    may_not_be_cut: bool,
    is_cut: bool,
    offset: u16,
    time_to_live: u8,
    protocol: u8,
    checksum: u16,
    source: [u8; 4],
    target: [u8; 4],
}

#[derive(Debug, PartialEq)]
struct Tcp {
    source: u16,
    target: u16,
    sequence: u32,
    acknowledged: u32,
    words: u8,
    /// From `NS` to `FIN`, the highest digit first.
    flags: u16,
    window: u16,
    checksum: u16,
    urgent: u16,
}

impl Ipv4 {
    fn read(reader: &mut BitReader<'_, u8, Msb0>) -> Result<Self, Refusal> {
        assert_eq!(reader.read::<u8>(4)?, 4, "the version");
        let mut header = Self {
            words: reader.read(4)?,
            service: reader.read(6)?,
            congestion: reader.read(2)?,
            length: reader.read(16)?,
            identification: reader.read(16)?,
            may_not_be_cut: {
                reader.skip(1)?;
                reader.read_bit()?
            },
            is_cut: reader.read_bit()?,
            offset: reader.read(13)?,
            time_to_live: reader.read(8)?,
            protocol: reader.read(8)?,
            checksum: reader.read(16)?,
            source: [0; 4],
            target: [0; 4],
        };
        reader.read_bytes(&mut header.source)?;
        reader.read_bytes(&mut header.target)?;
        reader.skip(32 * (usize::from(header.words) - 5))?;
        Ok(header)
    }

    fn write(&self, writer: &mut BitWriter<'_, u8, Msb0>) -> Result<(), Refusal> {
        writer.write(4, 4_u8)?;
        writer.write(4, self.words)?;
        writer.write(6, self.service)?;
        writer.write(2, self.congestion)?;
        writer.write(16, self.length)?;
        writer.write(16, self.identification)?;
        writer.write_bit(false)?;
        writer.write_bit(self.may_not_be_cut)?;
        writer.write_bit(self.is_cut)?;
        writer.write(13, self.offset)?;
        writer.write(8, self.time_to_live)?;
        writer.write(8, self.protocol)?;
        writer.write(16, self.checksum)?;
        writer.write_bytes(&self.source)?;
        writer.write_bytes(&self.target)
    }
}

impl Tcp {
    fn read(reader: &mut BitReader<'_, u8, Msb0>) -> Result<Self, Refusal> {
        let (source, target) = (reader.read(16)?, reader.read(16)?);
        let (sequence, acknowledged) = (reader.read(32)?, reader.read(32)?);
        let words = reader.read(4)?;
        reader.skip(3)?;
        let flags = reader.read(9)?;
        let (window, checksum, urgent) = (reader.read(16)?, reader.read(16)?, reader.read(16)?);
        Ok(Self {
            source,
            target,
            sequence,
            acknowledged,
            words,
            flags,
            window,
            checksum,
            urgent,
        })
    }

    fn write(&self, writer: &mut BitWriter<'_, u8, Msb0>) -> Result<(), Refusal> {
        writer.write(16, self.source)?;
        writer.write(16, self.target)?;
        writer.write(32, self.sequence)?;
        writer.write(32, self.acknowledged)?;
        writer.write(4, self.words)?;
        writer.write(3, 0_u8)?;
        writer.write(9, self.flags)?;
        writer.write(16, self.window)?;
        writer.write(16, self.checksum)?;
        writer.write(16, self.urgent)
    }
}

/// The sum of the numbers of 16 bits, with what is carried added again: all ones of a whole header.
fn sum(header: &[u8]) -> u16 {
    let words = header.view_bits::<Msb0>();
    let words = words.chunks(16).map(|word| word.load_be::<u16>());
    words.fold(0, |sum: u16, word| {
        let (sum, carried) = sum.overflowing_add(word);
        sum + u16::from(carried)
    })
}

fn main() -> Result<(), Refusal> {
    let bytes = [
        0x45_u8, 0x00, 0x00, 0x3c, 0x1c, 0x46, 0x40, 0x00, 0x40, 0x06, 0xb1, 0xe6, 172, 16, 10, 99,
        172, 16, 10, 12, 0x04, 0xd2, 0x00, 0x50, 0x00, 0x00, 0x00, 0x2a, 0x00, 0x00, 0x00, 0x00,
        0x50, 0x02, 0xff, 0xff, 0x00, 0x00, 0x00, 0x00,
    ];
    assert_eq!(sum(&bytes[..20]), 0xffff);

    let mut reader = BitReader::new(bytes.view_bits::<Msb0>());
    let ip = Ipv4::read(&mut reader)?;
    assert_eq!(
        (ip.words, ip.length, ip.time_to_live, ip.protocol),
        (5, 60, 64, 6)
    );
    assert!(ip.may_not_be_cut && !ip.is_cut);
    assert_eq!(
        (ip.source, ip.target),
        ([172, 16, 10, 99], [172, 16, 10, 12])
    );

    let tcp = Tcp::read(&mut reader)?;
    assert_eq!((tcp.source, tcp.target, tcp.sequence), (1234, 80, 42));
    assert_eq!((tcp.words, tcp.flags, tcp.window), (5, 2, 0xffff));
    assert_eq!(reader.remaining(), 0);
    assert_eq!(Tcp::read(&mut reader), Err(Refusal::TooFew));

    let mut written = [0; 40];
    let mut writer = BitWriter::new(written.view_bits_mut::<Msb0>());
    ip.write(&mut writer)?;
    tcp.write(&mut writer)?;
    writer.finish();
    assert_eq!(written, bytes);

    // Less time to live, and the checksum that belongs to it.
    let mut header = written[..20].as_mut_bits::<Msb0>();
    header.get_mut(64..72).expect("it is there").store_be(63_u8);
    header.get_mut(80..96).expect("it is there").store_be(0_u16);
    let checksum = !sum(&written[..20]);
    written[..20]
        .as_mut_bits::<Msb0>()
        .get_mut(80..96)
        .expect("it is there")
        .store_be(checksum);
    assert_eq!((checksum, sum(&written[..20])), (0xb2e6, 0xffff));
    println!("{ip:?}\n{tcp:?}");
    Ok(())
}
