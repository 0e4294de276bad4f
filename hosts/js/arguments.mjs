// Numbers, plans and sizes as a caller gives them. Each property is read once, and before any cell is copied, since
// a getter may call the module again.

// What is no number is taken as NaN, which no call allows.
export function numberOf(x) {
  return typeof x === 'number' ? x : NaN;
}

export function planOf(plan) {
  return [numberOf(plan?.radius), numberOf(plan?.inner), numberOf(plan?.edge), numberOf(plan?.passes)];
}

export function plansOf(plans) {
  return [planOf(plans?.across), planOf(plans?.down)];
}

export function sizesOf(sizes) {
  return [numberOf(sizes?.width), numberOf(sizes?.height)];
}
