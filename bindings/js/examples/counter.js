// A card of your own: 80 10 00 00 counts, and returns the count.
import { OwnCard, fromHex, toHex } from "../src/index.js";

const counter = {
    count: 0,
    takesData: () => false,
    carryOut({ header }) {
        if (toHex(header) !== "80100000") return [0x6D00];
        this.count = (this.count + 1) % 256;
        return [0x9000, Uint8Array.of(this.count)];
    },
};
const card = new OwnCard(counter);
for (let times = 0; times < 2; times++) {
    card.receiveBytes(fromHex("8010000001"));
    console.log(toHex(card.sendBytes()));
}
