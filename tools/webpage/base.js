// What the page carries: tables of registers, fields, capabilities, hwcaps and kinds, examples, and the module.
"use strict";

const $ = (id) => document.getElementById(id);
const DATA = JSON.parse($("data").textContent);
const registerByName = new Map(DATA.registers.map((register) => [register.name, register]));
const TRACKED = DATA.registers.filter((register) => DATA.fields.some((field) => field.register === register.name));
