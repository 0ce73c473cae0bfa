from sympy import Symbol, expand

id_U = Symbol("[U]", commutative=False)
id_V = Symbol("[V]", commutative=False)
m_a = Symbol("a", commutative=False)
s_a = Symbol("a'", commutative=False)
m_x = Symbol("x", commutative=False)
s_x = Symbol("x'", commutative=False)
m_y = Symbol("y", commutative=False)
s_y = Symbol("y'", commutative=False)

g2 = (1)*m_x*m_a*m_x + (-1)*m_x
g3 = (1)*s_x*s_a + (-1)*m_a*m_x
g4 = (-1)*m_x*m_a + (1)*s_a*s_x
g5 = (1)*m_a*m_y*m_a + (-1)*m_a
g6 = (1)*m_y*m_a*m_y + (-1)*m_y
g7 = (1)*s_y*s_a + (-1)*m_a*m_y
g8 = (-1)*m_y*m_a + (1)*s_a*s_y
g9 = (1)*s_a*s_x*s_a + (-1)*s_a

total = 0
total += (-1)*g2
total += (-1)*m_x*g5*m_x
total += (-1)*m_x*g7*m_a*m_x
total += (-1)*m_x*s_y*s_a*g3
total += (1)*m_x*s_y*g9
total += (1)*m_x*g7
total += (-1)*m_x*g5*m_y
total += (-1)*g4*m_y*m_a*m_y
total += (-1)*s_a*s_x*g8*m_y
total += (1)*g9*s_y*m_y
total += (1)*g8*m_y
total += (1)*g6
difference = expand(total - 1*((-1)*m_y + (1)*m_x))
print("certificate 1", "equal" if difference == 0 else f"differs by {difference}")
