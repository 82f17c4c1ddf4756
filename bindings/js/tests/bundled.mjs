// Is bundled, with the module in the bundle and also next to it.
import { load } from "dethrux";
import module from "dethrux/dethrux.wasm";

for (const source of [module, undefined]) {
    const dethrux = await load(source);
    console.log(dethrux.decode(dethrux.encode("Grüße", "be"), "be"));
}
