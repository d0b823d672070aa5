//! Each call of the library as a request, with the reply that `fast` predicts.

use super::message::Message;
use super::Library;
use crate::fast::Fast;
use crate::parts::{Answer, Dac, Hex, Pack, Paint, PaintOrder, Port, PortRecord, Pulse, RunningRecord};

impl Pulse for Library {
    fn level(&self, channel: u32, byte: u8, t: u32) -> Answer {
        let request = Message::request(b'p').number(channel).byte(byte).number(t);
        self.exchange(&request, || Message::reply().answer(Fast.level(channel, byte, t))).take_answer()
    }
}

impl Library {
    fn dac_call(&self, request: Message, record: &mut RunningRecord, predict: impl FnOnce(&mut RunningRecord)) {
        let mut predicted = *record;
        let mut reply = self.exchange(&request, || {
            predict(&mut predicted);
            Message::reply().dac(&predicted)
        });
        *record = reply.take_dac();
    }
}

impl Dac for Library {
    fn reset(&self, record: &mut RunningRecord) {
        let request = Message::request(b'r').dac(record);
        self.dac_call(request, record, |record| Dac::reset(&Fast, record));
    }

    fn write_low(&self, record: &mut RunningRecord, byte: u8) {
        let request = Message::request(b'l').dac(record).byte(byte);
        self.dac_call(request, record, |record| Fast.write_low(record, byte));
    }

    fn write_high(&self, record: &mut RunningRecord, byte: u8) {
        let request = Message::request(b'h').dac(record).byte(byte);
        self.dac_call(request, record, |record| Fast.write_high(record, byte));
    }

    fn play(&self, record: &mut RunningRecord, clocks: u32, levels: &mut [u8]) -> Answer {
        let request = Message::request(b'y').dac(record).number(clocks).slice(levels);
        let mut reply = self.exchange(&request, || {
            let (mut record, mut levels) = (*record, levels.to_vec());
            let answer = Fast.play(&mut record, clocks, &mut levels);
            Message::reply().answer(answer).dac(&record).plain(&levels)
        });
        let answer = reply.take_answer();
        *record = reply.take_dac();
        reply.take_bytes(levels);
        answer
    }
}

impl Library {
    fn port_call(&self, request: Message, port: &mut PortRecord, predict: impl FnOnce(&mut PortRecord)) {
        let mut predicted = *port;
        let mut reply = self.exchange(&request, || {
            predict(&mut predicted);
            Message::reply().port(&predicted)
        });
        *port = reply.take_port();
    }
}

impl Port for Library {
    fn reset(&self, port: &mut PortRecord) {
        let request = Message::request(b'z').port(port);
        self.port_call(request, port, |port| Port::reset(&Fast, port));
    }

    fn write_address(&self, port: &mut PortRecord, byte: u8) {
        let request = Message::request(b'a').port(port).byte(byte);
        self.port_call(request, port, |port| Fast.write_address(port, byte));
    }

    fn write_attribute(&self, port: &mut PortRecord, byte: u8) {
        let request = Message::request(b't').port(port).byte(byte);
        self.port_call(request, port, |port| Fast.write_attribute(port, byte));
    }

    fn write_character(&self, port: &mut PortRecord, byte: u8) {
        let request = Message::request(b'c').port(port).byte(byte);
        self.port_call(request, port, |port| Fast.write_character(port, byte));
    }
}

impl Paint for Library {
    fn paint(&self, order: &PaintOrder, dots: &mut [u8]) -> Answer {
        let settings = &order.settings;
        let request = Message::request(b'P')
            .words(order.words)
            .words(order.font)
            .number(u32::from(settings.on))
            .number(settings.mode)
            .number(settings.colour)
            .number(settings.h)
            .number(settings.v)
            .number(settings.ratio)
            .number(settings.frequency)
            .number(order.frame)
            .number(order.line)
            .number(order.width)
            .slice(dots);
        let mut reply = self.exchange(&request, || {
            let mut dots = dots.to_vec();
            let answer = Fast.paint(order, &mut dots);
            Message::reply().answer(answer).plain(&dots)
        });
        let answer = reply.take_answer();
        reply.take_bytes(dots);
        answer
    }
}

impl Hex for Library {
    fn read(&self, text: &[u8], image: &mut [u8]) -> Answer {
        let request = Message::request(b'R').slice(text).slice(image);
        let mut reply = self.exchange(&request, || {
            let mut image = image.to_vec();
            let answer = Fast.read(text, &mut image);
            Message::reply().answer(answer).plain(&image)
        });
        let answer = reply.take_answer();
        reply.take_bytes(image);
        answer
    }

    fn write(&self, font: &[u16], text: &mut [u8]) -> Answer {
        let request = Message::request(b'W').words(font).slice(text);
        let mut reply = self.exchange(&request, || {
            let mut text = text.to_vec();
            let answer = Fast.write(font, &mut text);
            Message::reply().answer(answer).plain(&text)
        });
        let answer = reply.take_answer();
        reply.take_bytes(text);
        answer
    }

    fn image_to_font(&self, image: &[u8], font: &mut [u16]) -> Answer {
        let request = Message::request(b'I').slice(image).words(font);
        let mut reply = self.exchange(&request, || {
            let mut font = font.to_vec();
            let answer = Fast.image_to_font(image, &mut font);
            Message::reply().answer(answer).plain_words(&font)
        });
        let answer = reply.take_answer();
        reply.take_words(font);
        answer
    }
}

impl Pack for Library {
    fn pack(&self, glyphs: &[u16], font: &mut [u16], cells: &mut [u8]) -> Answer {
        let request = Message::request(b'G').words(glyphs).words(font).slice(cells);
        let mut reply = self.exchange(&request, || {
            let (mut font, mut cells) = (font.to_vec(), cells.to_vec());
            let answer = Fast.pack(glyphs, &mut font, &mut cells);
            Message::reply().answer(answer).plain_words(&font).plain(&cells)
        });
        let answer = reply.take_answer();
        reply.take_words(font);
        reply.take_bytes(cells);
        answer
    }
}
