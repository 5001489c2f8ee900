// A network of ns-3's RIPng routers (tools/beside_ns3.py). It is read from a file: the numbers of routers and links, and then for each link two
// routers and the costs of their interfaces. Each router owns the prefix 2001:db8:N+1::/48; links have 1 Gbit/s and 1 ms. At the second `cut`
// both ends of a link see it go down. What was sent is printed at the end, in words and numbers; the tables of all routers are written to the
// file FILE.S at each second S of `dumps`.
#include "ns3/core-module.h"
#include "ns3/internet-module.h"
#include "ns3/network-module.h"
#include "ns3/point-to-point-module.h"
#include <cstdlib>
#include <fstream>
#include <iostream>
#include <sstream>

using namespace ns3;

namespace {

struct Sums {
    uint64_t datagrams = 0, entries = 0, bytes = 0;
} sums;

struct End {
    Ptr<Ipv6> stack;
    uint32_t interface;
};

// Counts a datagram of UDP: its entries have 20 bytes each, after a header of 4 (RFC 2080, section 2.1).
void Count(Ptr<const Packet> packet, Ptr<Ipv6>, uint32_t)
{
    Ptr<Packet> rest = packet->Copy();
    Ipv6Header header;
    rest->RemoveHeader(header);
    if (header.GetNextHeader() == 17) {
        uint32_t size = rest->GetSize() - 8;
        sums.datagrams += 1;
        sums.bytes += size;
        sums.entries += (size - 4) / 20;
    }
}

// An interface of a router on a link, with its cost.
End Join(Ptr<Node> node, Ptr<NetDevice> device, uint32_t cost)
{
    Ptr<Ipv6> stack = node->GetObject<Ipv6>();
    uint32_t interface = stack->AddInterface(device);
    stack->SetMetric(interface, 1);
    stack->SetUp(interface);
    stack->SetForwarding(interface, true);
    DynamicCast<RipNg>(stack->GetRoutingProtocol())->SetInterfaceMetric(interface, cost);
    return {stack, interface};
}

// The routers own a prefix each, and what they send is counted.
void Begin(NodeContainer nodes)
{
    for (uint32_t router = 0; router < nodes.GetN(); router++) {
        Ptr<Ipv6> stack = nodes.Get(router)->GetObject<Ipv6>();
        std::ostringstream address;
        address << "2001:db8:" << std::hex << router + 1 << "::1";
        stack->AddAddress(0, Ipv6InterfaceAddress(Ipv6Address(address.str().c_str()), Ipv6Prefix(48)));
        stack->SetForwarding(0, true);
        stack->GetObject<Ipv6L3Protocol>()->TraceConnectWithoutContext("Tx", MakeCallback(&Count));
    }
}

void Dump(NodeContainer nodes, std::string name)
{
    Ptr<OutputStreamWrapper> out = Create<OutputStreamWrapper>(name, std::ios::out);
    for (uint32_t router = 0; router < nodes.GetN(); router++) {
        *out->GetStream() << "ROUTER " << router << "\n";
        nodes.Get(router)->GetObject<Ipv6>()->GetRoutingProtocol()->PrintRoutingTable(out);
    }
}

} // namespace

int main(int argc, char** argv)
{
    std::string links, file, dumps;
    int failing = -1;
    double cut = 300, stop = 600, regular = 24;
    uint32_t seed = 1;
    CommandLine words;
    words.AddValue("links", "the file of the network", links);
    words.AddValue("failing", "the link that fails", failing);
    words.AddValue("cut", "the second at which it does", cut);
    words.AddValue("stop", "the last second", stop);
    words.AddValue("seed", "the seed of all that is random", seed);
    words.AddValue("regular", "the least seconds between regular updates; the most are half as much again", regular);
    words.AddValue("dump", "the files of tables", file);
    words.AddValue("dumps", "their seconds, with commas between them", dumps);
    words.Parse(argc, argv);
    RngSeedManager::SetSeed(seed);
    Config::SetDefault("ns3::Icmpv6L4Protocol::DAD", BooleanValue(false));
    Config::SetDefault("ns3::RipNg::UnsolicitedRoutingUpdate", TimeValue(Seconds(regular)));

    std::ifstream in(links);
    uint32_t routers, count, one, other, cost, other_cost;
    in >> routers >> count;
    NodeContainer nodes;
    nodes.Create(routers);
    InternetStackHelper stacks;
    stacks.SetIpv4StackInstall(false);
    stacks.SetRoutingHelper(RipNgHelper());
    stacks.Install(nodes);
    PointToPointHelper cable;
    cable.SetDeviceAttribute("DataRate", StringValue("1Gbps"));
    cable.SetChannelAttribute("Delay", StringValue("1ms"));
    for (int link = 0; in >> one >> other >> cost >> other_cost; link++) {
        NetDeviceContainer devices = cable.Install(nodes.Get(one), nodes.Get(other));
        for (End end : {Join(nodes.Get(one), devices.Get(0), cost), Join(nodes.Get(other), devices.Get(1), other_cost)}) {
            if (link == failing) {
                Simulator::Schedule(Seconds(cut), [end] { end.stack->SetDown(end.interface); });
            }
        }
    }
    Begin(nodes);
    std::stringstream seconds(dumps);
    for (std::string second; std::getline(seconds, second, ',');) {
        Simulator::Schedule(Seconds(std::stod(second)), [nodes, file, second] { Dump(nodes, file + "." + second); });
    }
    Simulator::Stop(Seconds(stop));
    Simulator::Run();
    std::cout << "datagrams " << sums.datagrams << " entries " << sums.entries << " bytes " << sums.bytes << std::endl;
    std::_Exit(0);
}
