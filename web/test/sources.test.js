/* Lines of blocks that rosm_source has made, shown as the old source has them. */

import assert from "node:assert";
import { test } from "node:test";
import { sourceLines } from "../src/sources.js";

const MADE = [" ; far is &20000, outside the program", "base", " DCD &00000048 ; DCD     init - base", "Title",
  " DCD &63736944,&68636143 ; Title   =       \"DiscCache\", 0", " DCB &65,&00", "_10_2E8", " DCD &E1A0C002 ; 10      MOV     wp, r2",
  " DCD &E92D401F ; $lab    STM$cc.FD  R13!, {$regs}", "_END ; END", " DCD &E3A00001 ; 50.end MOV R0,#1", "END"];

test("a source's line takes the place of its words", () => {
  assert.deepEqual(sourceLines(MADE), [" ; far is &20000, outside the program", "base", " DCD     init - base", "Title",
    "Title   =       \"DiscCache\", 0", " DCB &65,&00", "_10_2E8", "10      MOV     wp, r2",
    " ; $lab    STM$cc.FD  R13!, {$regs}", "_END ; END", "50.end MOV R0,#1", "END"]);
});

test("a block that somebody has written stays as it is", () => {
  for (const line of ["        MOV     R0,#1", " MOV R0,#1 ; one", "loop    B       loop", " DCD total ; a label", " DCD 5 ; five"]) {
    const texts = [...MADE, line];
    assert.equal(sourceLines(texts), texts, line);
  }
  const plain = ["table", " DCD &00000001,&00000002", "END"];
  assert.equal(sourceLines(plain), plain);
});
