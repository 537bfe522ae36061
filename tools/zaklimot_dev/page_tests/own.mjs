// The check that the page makes of its examples, without a browser: own.mjs MODULE PAGE
import { readFileSync } from "node:fs";
import { Adapter } from "../../../page/run/adapter.js";
import { bytesOfBase64 } from "../../../page/common/bytes.js";
import { checkedExamples } from "../../../page/run/checking.js";
import { examplesOf } from "../../../page/common/packed.js";

const [module, page] = process.argv.slice(2);
const DATA = /<script type="application\/json" id="zaklimot-data">([^]*?)<\/script>/;
const data = JSON.parse(readFileSync(page, "utf-8").match(DATA)[1]);
const adapter = await Adapter.of(new Uint8Array(readFileSync(module)));
const told = await checkedExamples(adapter, bytesOfBase64(data.fonts), await examplesOf(data));
process.stdout.write(JSON.stringify(told));
