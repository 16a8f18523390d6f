// Colours of owners: twelve, then shades of them, each with a texture of its own, so that nothing is told by colour alone.

const TWELVE = [
  '#3a7fd0', '#d07f36', '#3f9a5c', '#8a5cc2', '#c94a5a', '#2a9c9c', '#96693c', '#cf6fae', '#8b962c', '#4653a8', '#c29a1e', '#66788a',
];
// towards white where positive, towards black where negative
const SHADES = [0, 0.4, -0.3, 0.65, -0.5, 0.2];

export const TEXTURES = ['plain', 'rising', 'dots', 'upright', 'falling', 'level', 'grid'];
export const PUBLIC = '#c9ced8';
export const NOBODY = '#2b2f38';

function mixed(part, shade) {
  return Math.round(shade > 0 ? part + (255 - part) * shade : part * (1 + shade));
}

// A colour in a lighter or darker shade.
export function shaded(colour, shade) {
  const parts = [1, 3, 5].map((place) => mixed(parseInt(colour.slice(place, place + 2), 16), shade));
  return `#${parts.map((part) => part.toString(16).padStart(2, '0')).join('')}`;
}

// The colour of the owner at a place of the policy.
export function colourOf(owner) {
  return shaded(TWELVE[owner % TWELVE.length], SHADES[Math.floor(owner / TWELVE.length) % SHADES.length]);
}

// The texture of the owner at a place of the policy.
export function textureOf(owner) {
  return TEXTURES[owner % TEXTURES.length];
}

// The bands of a label: one for each clause of its secrecy, with the owners of the clause.
export function bandsOf(label) {
  if (label.secrecy.length === 0) return [{ kind: 'public', owners: [] }];
  if (label.secrecy[0].length === 0) return [{ kind: 'nobody', owners: [] }];
  return label.secrecy.map((owners) => ({ kind: 'owned', owners }));
}

function bandColours(band) {
  if (band.kind === 'public') return [PUBLIC];
  return band.kind === 'nobody' ? [NOBODY] : band.owners.map(colourOf);
}

// The stripes of a band, one after another, as part of the background of a box.
function stripes(colours) {
  const width = 100 / colours.length;
  const stops = colours.map((colour, place) => `${colour} ${place * width}%, ${colour} ${(place + 1) * width}%`);
  return `linear-gradient(90deg, ${stops.join(', ')})`;
}

// The background of a small box that stands for a label.
export function swatchBackground(label) {
  const bands = bandsOf(label);
  const height = 100 / bands.length;
  const layers = bands.map((band, place) => {
    const where = bands.length === 1 ? '0' : `${(place * 100) / (bands.length - 1)}%`;
    return `${stripes(bandColours(band))} 0 ${where} / 100% ${height}% no-repeat`;
  });
  return layers.join(', ');
}
